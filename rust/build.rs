//! Links the static library `face`: from the folder that CABLEFINCH_ARCHIVE names, or else as
//! `tools/archive` of the repository makes it.

use std::env;
use std::path::{Path, PathBuf};
use std::process::{Command, Stdio, exit};

const VARIABLE: &str = "CABLEFINCH_ARCHIVE";
const ARCHIVE: &str = "libface.a";

fn main() {
    println!("cargo:rerun-if-env-changed={VARIABLE}");
    println!("cargo:rerun-if-changed=build.rs");
    match folder() {
        Ok(folder) => {
            println!(
                "cargo:rerun-if-changed={}",
                folder.join(ARCHIVE).to_string_lossy()
            );
            println!(
                "cargo:rustc-link-search=native={}",
                folder.to_string_lossy()
            );
            println!("cargo:rustc-link-lib=static=face");
        }
        Err(message) => {
            eprintln!("cablefinch: {message}");
            exit(1);
        }
    }
}

fn folder() -> Result<PathBuf, String> {
    match env::var_os(VARIABLE) {
        Some(folder) => given(Path::new(&folder)),
        None => made(),
    }
}

/// The folder that the variable names.
fn given(folder: &Path) -> Result<PathBuf, String> {
    if folder.is_relative() {
        return Err(format!(
            "{VARIABLE} names {}, which is no absolute path",
            folder.display()
        ));
    }
    if !folder.join(ARCHIVE).is_file() {
        return Err(format!(
            "{VARIABLE} names {}, where there is no {ARCHIVE}",
            folder.display()
        ));
    }
    Ok(folder.to_path_buf())
}

/// What the archive is made of: the script, the list of crates and their sources, beside which `rt` keeps its own work.
fn sources(root: &Path) -> Vec<PathBuf> {
    let mut found = vec![root.join("tools/archive"), root.join("crates.txt")];
    let folders = root.join("crates").read_dir().into_iter().flatten();
    for folder in folders.flatten() {
        for part in ["src", "specs", "proofs"] {
            found.push(folder.path().join(part));
        }
    }
    found.retain(|source| source.exists());
    found
}

/// The folder of the archive that the repository's script makes for this machine.
fn made() -> Result<PathBuf, String> {
    let hint = format!("or set {VARIABLE} to a folder that has {ARCHIVE} for the target processor");
    let (host, target) = (env::var("HOST"), env::var("TARGET"));
    if host != target {
        return Err(format!(
            "tools/archive makes the library for this machine, and the target is another: build on the target, {hint}"
        ));
    }
    let root = env::var_os("CARGO_MANIFEST_DIR")
        .map(PathBuf::from)
        .and_then(|manifest| manifest.parent().map(Path::to_path_buf))
        .ok_or("the crate's folder is not known")?;
    let script = root.join("tools").join("archive");
    if !script.is_file() {
        return Err(format!(
            "there is no tools/archive beside the crate: build it in a clone of the repository, {hint}"
        ));
    }
    for source in sources(&root) {
        println!("cargo:rerun-if-changed={}", source.to_string_lossy());
    }
    // What it says of its progress goes where this script's does: cargo shows it with -vv, and where
    // the script fails.
    let output = Command::new(&script)
        .stdin(Stdio::null())
        .stderr(Stdio::inherit())
        .output()
        .map_err(|error| format!("tools/archive does not run ({error}): mend that, {hint}"))?;
    if !output.status.success() {
        return Err(format!(
            "tools/archive failed, as it says above; it needs the Rattle toolchain, `rt` on the PATH, and a \
             tree that can be written: see to that, {hint}"
        ));
    }
    let printed = String::from_utf8_lossy(&output.stdout);
    let archive = PathBuf::from(printed.trim_end());
    match archive.parent() {
        Some(folder) if archive.is_file() => Ok(folder.to_path_buf()),
        _ => Err(format!(
            "tools/archive printed {printed:?}, which is no file"
        )),
    }
}
