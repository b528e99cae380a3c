"""The guest: its kernel and its root from Debian's packages, and QEMU that runs it."""

import glob
import gzip
import os
import re
import shutil
import stat
import subprocess

from loopback import Failed, last_line, run

HERE = os.path.dirname(os.path.realpath(__file__))
PACKAGES = ("busybox-static", "open-iscsi", "libopeniscsiusr", "libisns0", "e2fsprogs", "libext2fs2", "libcom-err2", "libss2", "libblkid1",
            "libuuid1", "libc6", "libssl3", "libsystemd0", "libcap2", "libgcrypt20", "libgpg-error0", "liblzma5", "libzstd1", "liblz4-1",
            "libkmod2", "libmount1", "libselinux1", "libpcre2-8-0", "sg3-utils", "libsgutils2-1.46-2", "libgcc-s1")
MODULES = ("virtio_pci", "virtio_net", "crc32c_generic", "crct10dif_generic", "crc64_rocksoft_generic", "sd_mod", "sg", "ext4", "iscsi_tcp")
NEEDED = ("apt-get", "apt-cache", "dpkg-deb", "depmod", "cc", "qemu-system-x86_64")
WAIT_PACKAGES, WAIT_UNPACK = 600, 300


def done(words, seconds, **named):
    """What a program says. `Failed` where it fails."""
    ended = run(words, seconds, **named)
    if ended.returncode:
        raise Failed(f"{words[0]}: {last_line(ended.stdout)}")
    return ended.stdout


def fetch(folder):
    """The packages lie in a folder, and what lacks there is downloaded by apt-get. The path of the kernel's package."""
    found = re.search(r"Depends: (linux-image-\S+)", done(["apt-cache", "depends", "linux-image-amd64"], 60))
    if not found:
        raise Failed("there is no package linux-image-amd64")
    os.makedirs(folder, exist_ok=True)
    absent = [name for name in (found[1], *PACKAGES) if not glob.glob(os.path.join(folder, f"{name}_*.deb"))]
    if absent:
        done(["apt-get", "download", *absent], WAIT_PACKAGES, cwd=folder)
    return package(folder, found[1])


def package(folder, name):
    return glob.glob(os.path.join(folder, f"{name}_*.deb"))[0]


def add_modules(kernel, root):
    """The modules that the guest loads, and those that they need, with the list by which modprobe finds them."""
    version = os.listdir(os.path.join(kernel, "lib", "modules"))[0]
    done(["depmod", "-b", kernel, version], 120)
    source, place = os.path.join(kernel, "lib", "modules", version), os.path.join(root, "lib", "modules", version)
    with open(os.path.join(source, "modules.dep"), encoding="ascii") as file:
        needs = dict(line.rstrip("\n").split(":", 1) for line in file)
    by_name = {os.path.basename(path).partition(".")[0].replace("-", "_"): path for path in needs}
    wanted = [by_name[name] for name in MODULES if name in by_name]
    for path in wanted:
        wanted += [other for other in needs[path].split() if other not in wanted]
    for path in wanted:
        os.makedirs(os.path.dirname(os.path.join(place, path)), exist_ok=True)
        shutil.copy(os.path.join(source, path), os.path.join(place, path))
    for name in ("modules.dep", "modules.symbols", "modules.alias", "modules.softdep"):
        shutil.copy(os.path.join(source, name), place)


def make_root(packages, folder):
    """Unpacks the packages, and adds what the guest runs. Gives the kernel and the root."""
    kernel_package, kernel, root = fetch(packages), os.path.join(folder, "kernel"), os.path.join(folder, "root")
    done(["dpkg-deb", "-x", kernel_package, kernel], WAIT_UNPACK)
    for name in PACKAGES:
        done(["dpkg-deb", "-x", package(packages, name), root], WAIT_UNPACK)
    for waste in ("usr/share", "etc/init.d", "lib/systemd"):
        shutil.rmtree(os.path.join(root, waste), ignore_errors=True)
    add_modules(kernel, root)
    shutil.copy(os.path.join(HERE, "init"), root)
    os.chmod(os.path.join(root, "init"), 0o755)
    os.makedirs(os.path.join(root, "run"), exist_ok=True)
    done(["cc", "-O2", "-static", "-pthread", "-o", os.path.join(root, "bin", "blocks"), os.path.join(HERE, "blocks.c")], 60)
    return glob.glob(os.path.join(kernel, "boot", "vmlinuz-*"))[0], root


def entry(name, mode, size, number):
    """A header of an archive as the kernel unpacks it (cpio's newc)."""
    fields = (number, mode, 0, 0, 1, 0, size, 0, 0, 0, 0, len(name) + 1, 0)
    head = b"070701" + b"".join(b"%08X" % field for field in fields) + name + b"\0"
    return head + bytes(-len(head) % 4)


def pack(root, path):
    """The root as an initramfs."""
    with gzip.open(path, "wb", compresslevel=1) as archive:
        number = 0
        for folder, folders, files in os.walk(root):
            for one in sorted((*folders, *files)):
                number += 1
                place = os.path.join(folder, one)
                mode = os.lstat(place).st_mode
                content = b""
                if stat.S_ISLNK(mode):
                    content = os.readlink(place).encode()
                elif stat.S_ISREG(mode):
                    with open(place, "rb") as file:
                        content = file.read()
                archive.write(entry(os.path.relpath(place, root).encode(), mode, len(content), number) + content + bytes(-len(content) % 4))
        archive.write(entry(b"TRAILER!!!", 0, 0, 0))


class Guest:
    """QEMU with the guest, whose lines are read as they come."""

    def __init__(self, kernel, archive, words, accelerator="tcg"):
        self.process = subprocess.Popen(
            ["qemu-system-x86_64", "-accel", accelerator, "-m", "1024", "-smp", "2", "-kernel", kernel, "-initrd", archive,
             "-append", f"console=ttyS0 quiet panic=-1 {words}", "-nic", "user,model=virtio-net-pci", "-display", "none", "-monitor", "none",
             "-serial", "stdio", "-no-reboot"],
            stdin=subprocess.DEVNULL, stdout=subprocess.PIPE, stderr=subprocess.STDOUT, start_new_session=True)

    def lines(self):
        for line in self.process.stdout:
            yield line.decode("utf-8", "replace").strip()

    def end(self):
        self.process.kill()
        self.process.wait()
        self.process.stdout.close()
