//! Finds the library's archive, or makes it, and links it with the object of the kit that calls `malloc`.
//!
//! Two archives are wanted: `libiscsi_c.a`, which `rt lib` makes in `crates/iscsi_c`, and the kit's `liblibc_c.a`.
//! Where the environment has `CUNDARRIX_LIB_DIR`, both are taken from that folder (the second one from the kit, if it
//! isn't there). With the feature `docs`, or where the environment has `DOCS_RS`, neither is looked for: `cargo doc`
//! and `cargo check` link nothing.

use std::collections::BTreeSet;
use std::env;
use std::fs;
use std::path::{Path, PathBuf};
use std::process::{exit, Command};
use std::time::SystemTime;

const ARCHIVE: &str = "libiscsi_c.a";
const HEAP: &str = "liblibc_c.a";
const FOLDER: &str = "CUNDARRIX_LIB_DIR";
const DOCUMENTS: &str = "DOCS_RS";

fn main() {
    println!("cargo:rerun-if-changed=build.rs");
    println!("cargo:rerun-if-env-changed={FOLDER}");
    println!("cargo:rerun-if-env-changed={DOCUMENTS}");
    if env::var_os("CARGO_FEATURE_DOCS").is_some() || env::var_os(DOCUMENTS).is_some() {
        return;
    }
    if let Err(why) = link() {
        eprintln!("cundarrix: {why}");
        exit(1);
    }
}

fn link() -> Result<(), String> {
    let given = env::var_os(FOLDER).map(PathBuf::from);
    let folder = match &given {
        Some(folder) => there(folder.join(ARCHIVE)).map_err(|why| format!("{FOLDER}: {why}"))?,
        None => built_archive()?,
    };
    println!("cargo:rustc-link-search=native={}", folder.display());
    println!("cargo:rustc-link-lib=static=iscsi_c");
    let heap = match given.map(|folder| folder.join(HEAP)) {
        Some(heap) if heap.is_file() => there(heap)?,
        _ => there(kit()?.join("c").join(HEAP))?,
    };
    println!("cargo:rustc-link-search=native={}", heap.display());
    println!("cargo:rustc-link-lib=static=libc_c");
    Ok(())
}

/// The folder of a file that is there.
fn there(file: PathBuf) -> Result<PathBuf, String> {
    println!("cargo:rerun-if-changed={}", file.display());
    match file.parent() {
        Some(folder) if file.is_file() => Ok(folder.to_path_buf()),
        _ => Err(format!("{} isn't there", file.display())),
    }
}

/// The kit's folder: `rt doc` prints the path of its first page.
fn kit() -> Result<PathBuf, String> {
    let absent = format!(
        "{HEAP} of the Rattle kit isn't found, as `rt doc` doesn't answer; put `rt` on the PATH, or set {FOLDER} to a \
         folder with {ARCHIVE} and {HEAP}"
    );
    let answer = Command::new("rt").arg("doc").output().map_err(|_| absent.clone())?;
    let page = PathBuf::from(String::from_utf8_lossy(&answer.stdout).trim());
    page.parent().filter(|_| page.is_file()).map(Path::to_path_buf).ok_or(absent)
}

/// The folder of the archive in the repository, made by `rt lib` where it is missing or older than a source.
fn built_archive() -> Result<PathBuf, String> {
    let top = Path::new(env!("CARGO_MANIFEST_DIR")).join("../..");
    let krate = top.join("crates/iscsi_c");
    if !krate.is_dir() {
        return Err(format!("there is no crates/iscsi_c two folders above; set {FOLDER} to a folder with {ARCHIVE}"));
    }
    let archive = krate.join("out").join(ARCHIVE);
    let newest = newest_source(&top)?;
    let made = fs::metadata(&archive).and_then(|is| is.modified()).ok();
    if made.is_none_or(|made| made < newest) {
        make(&krate, made.is_some())?;
    }
    there(archive)
}

/// Runs `rt lib`. Without `rt` an archive that is there is taken as it is, with a warning.
fn make(krate: &Path, has_archive: bool) -> Result<(), String> {
    match Command::new("rt").arg("lib").current_dir(krate).output() {
        Ok(run) if run.status.success() => Ok(()),
        Ok(run) => {
            let said = [run.stdout, run.stderr].concat();
            Err(format!("`rt lib` failed in {}:\n{}", krate.display(), String::from_utf8_lossy(&said)))
        }
        Err(_) if has_archive => {
            println!("cargo:warning={ARCHIVE} is older than its sources, and there is no `rt` to make it");
            Ok(())
        }
        Err(why) => Err(format!(
            "{ARCHIVE} isn't built, and the Rattle kit's `rt` can't be run ({why}); put `rt` on the PATH, or set \
             {FOLDER} to a folder with {ARCHIVE} and {HEAP}"
        )),
    }
}

/// When the newest source of the archive's crates was written. Cargo is told to watch them.
fn newest_source(top: &Path) -> Result<SystemTime, String> {
    let list = fs::read_to_string(top.join("crates.txt")).map_err(|why| format!("crates.txt: {why}"))?;
    let mut crates = BTreeSet::new();
    add_crate("iscsi_c", &list, &mut crates);
    let mut newest = SystemTime::UNIX_EPOCH;
    for name in crates {
        for part in ["src", "specs", "proofs"] {
            let folder = top.join("crates").join(name).join(part);
            if folder.is_dir() {
                println!("cargo:rerun-if-changed={}", folder.display());
                newest = newest.max(newest_in(&folder).map_err(|why| format!("{}: {why}", folder.display()))?);
            }
        }
    }
    Ok(newest)
}

/// Adds a crate and those that it stands on, by the lines `NAME: DEP ..` and `NAME staticlib: DEP ..`.
fn add_crate<'a>(name: &'a str, list: &'a str, crates: &mut BTreeSet<&'a str>) {
    let lines = list.lines().filter_map(|line| line.split_once(':'));
    for (head, below) in lines.filter(|(head, _)| head.split(' ').next() == Some(name)) {
        if !head.starts_with('#') && crates.insert(name) {
            below.split_whitespace().for_each(|one| add_crate(one, list, crates));
        }
    }
}

fn newest_in(folder: &Path) -> std::io::Result<SystemTime> {
    let mut newest = SystemTime::UNIX_EPOCH;
    for entry in fs::read_dir(folder)? {
        let entry = entry?;
        newest = newest.max(match entry.file_type()?.is_dir() {
            true => newest_in(&entry.path())?,
            false => entry.metadata()?.modified()?,
        });
    }
    Ok(newest)
}
