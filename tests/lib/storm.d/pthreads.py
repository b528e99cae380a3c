"""Builds the target over the locks of the C library, which helgrind sees: a copy of its sources and of the disk's, in
which pthreads.rs stands for std::sync."""

import os
import re
import shutil

from loopback import TOP, WAIT_BUILD, Failed, last_line, run

HERE = os.path.dirname(os.path.realpath(__file__))
USE = re.compile(r"^use std::sync::", re.MULTILINE)
MODULE = re.compile(r"^((?:pub )?mod )", re.MULTILINE)


def build_over_pthreads(folder):
    """The path of the program, built in this folder."""
    copy = os.path.join(folder, "over-pthreads")
    shutil.rmtree(copy, ignore_errors=True)
    shutil.copytree(os.path.join(TOP, "examples", "target"), copy, ignore=shutil.ignore_patterns("target"))
    for crate in (copy, os.path.join(copy, "disk")):
        put_locks_in(crate)
    rewrite(os.path.join(copy, "Cargo.toml"), lambda text: text.replace("../../bindings", f"{TOP}/bindings"))
    done = run(["cargo", "build", "--release", "--offline"], WAIT_BUILD, cwd=copy,
               env={**os.environ, "CARGO_PROFILE_RELEASE_DEBUG": "1"})
    if done.returncode:
        raise Failed(f"the target over pthreads isn't built: {last_line(done.stdout)}")
    return os.path.join(copy, "target", "release", "target")


def put_locks_in(copy):
    """Puts pthreads.rs in the place of std::sync, in the copy of a crate."""
    for file in os.listdir(os.path.join(copy, "src")):
        rewrite(os.path.join(copy, "src", file), lambda text: USE.sub("use crate::pthreads::", text))
    rewrite(os.path.join(copy, "src", "lib.rs"), lambda text: MODULE.sub(r"mod pthreads;\n\1", text, count=1))
    shutil.copy(os.path.join(HERE, "pthreads.rs"), os.path.join(copy, "src"))


def rewrite(path, change):
    with open(path, encoding="utf-8") as file:
        text = change(file.read())
    with open(path, "w", encoding="utf-8") as file:
        file.write(text)
