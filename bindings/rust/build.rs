//! Finds the proved archive that `src/raw.rs` links: in the folder that LENTHUC_ARCHIVE names, or
//! where `tools/archive` writes it, target/staticlib at the repository's top. A build script of
//! a crate that depends on this one is told the folder by the variable DEP_CAPI_FOLDER.

use std::env;
use std::fs;
use std::path::{Path, PathBuf};

const FOLDER: &str = "LENTHUC_ARCHIVE";
const ARCHIVE: &str = "libcapi.a";

/// A function that archives of versions before 0.8.0 lack.
const NEWEST: &[u8] = b"lenthuc_travel_charge";

fn main() {
    println!("cargo::rerun-if-changed=build.rs");
    println!("cargo::rerun-if-env-changed={FOLDER}");
    match target().and_then(|()| folder()) {
        Ok(folder) => {
            println!("cargo::rustc-link-search=native={folder}");
            println!("cargo::rerun-if-changed={folder}/{ARCHIVE}");
            println!("cargo::metadata=folder={folder}");
        }
        Err(message) => println!("cargo::error={message}"),
    }
}

/// A linker says of an archive for another machine only that it has no such symbols.
fn target() -> Result<(), String> {
    let of = |part: &str| env::var(format!("CARGO_CFG_TARGET_{part}")).unwrap_or_default();
    let (arch, os) = (of("ARCH"), of("OS"));
    if (arch.as_str(), os.as_str()) == ("x86_64", "linux") {
        return Ok(());
    }
    Err(format!(
        "{ARCHIVE} is for x86-64 Linux, and links into no program for {arch} {os}"
    ))
}

fn folder() -> Result<String, String> {
    let folder = match env::var_os(FOLDER) {
        Some(named) => PathBuf::from(named),
        None => Path::new(env!("CARGO_MANIFEST_DIR")).join("../../target/staticlib"),
    };
    let shown = folder.display();
    // A build script has a working folder of its own, so a relative path would mean another one.
    if !folder.is_absolute() {
        return Err(format!(
            "{FOLDER} names the folder '{shown}': an absolute path is needed"
        ));
    }
    let Ok(archive) = fs::read(folder.join(ARCHIVE)) else {
        return Err(format!(
            "the proved archive {ARCHIVE} is not in {shown}: run `tools/archive` at the top of \
             Lenthuc's repository, or set {FOLDER} to the folder that has it"
        ));
    };
    // Of this too a linker says only that a symbol is not there.
    if !archive.windows(NEWEST.len()).any(|part| part == NEWEST) {
        return Err(format!(
            "the archive {ARCHIVE} in {shown} is older than this crate, {}: run `tools/archive` again \
             at the top of Lenthuc's repository",
            env!("CARGO_PKG_VERSION")
        ));
    }
    match folder.to_str() {
        Some(path) => Ok(path.to_owned()),
        None => Err(format!("the path {shown} is not UTF-8, which cargo needs")),
    }
}
