//! Links libgoramul.a. The repository's script `library` makes it, and has `rt` prove it first.
//! GORAMUL_LIB_DIR names a folder that has it ready.

use std::env;
use std::fs;
use std::io;
use std::path::{Path, PathBuf};
use std::process::{exit, Command};

const LIBRARY: &str = "libgoramul.a";

fn main() {
    println!("cargo:rerun-if-env-changed=GORAMUL_LIB_DIR");
    let folder = match env::var_os("GORAMUL_LIB_DIR") {
        Some(folder) => given(PathBuf::from(folder)),
        None => made(&root()),
    };
    println!("cargo:rerun-if-changed={}", folder.join(LIBRARY).display());
    println!("cargo:rustc-link-search=native={}", folder.display());
    println!("cargo:rustc-link-lib=static=goramul");
}

fn given(folder: PathBuf) -> PathBuf {
    if !folder.join(LIBRARY).is_file() {
        fail(&format!(
            "GORAMUL_LIB_DIR: there is no {LIBRARY} in {folder:?}"
        ));
    }
    folder
}

/// The repository, whose folder `rust` this package is.
fn root() -> PathBuf {
    let package = env::var_os("CARGO_MANIFEST_DIR").expect("cargo names the package's folder");
    let parent = Path::new(&package).parent();
    parent.expect("the package is a folder").to_path_buf()
}

/// The folder of a library no older than its sources.
fn made(root: &Path) -> PathBuf {
    let script = root.join("library");
    if !script.is_file() || !root.join("crates.txt").is_file() {
        fail(&format!(
            "this package isn't in the repository of its library: {root:?} has no script `library` \
             and no crates to make {LIBRARY} of. Set GORAMUL_LIB_DIR to a folder that has it"
        ));
    }
    for source in sources(root) {
        println!("cargo:rerun-if-changed={}", source.display());
    }
    // Cargo reads the standard output of this script.
    match Command::new(&script).stdout(io::stderr()).status() {
        Ok(status) if status.success() => root.join("target"),
        Ok(status) => fail(&format!("{script:?} ended with {status}")),
        Err(why) => fail(&format!("{script:?} can't be run: {why}")),
    }
}

/// What the library is made of: crates.txt and every crate's `src`.
fn sources(root: &Path) -> Vec<PathBuf> {
    let crates = fs::read_dir(root.join("crates")).into_iter().flatten();
    let folders = crates.flatten().map(|name| name.path().join("src"));
    let mut all: Vec<PathBuf> = folders.filter(|folder| folder.is_dir()).collect();
    all.push(root.join("crates.txt"));
    all
}

fn fail(why: &str) -> ! {
    eprintln!("goramul: {why}");
    exit(1)
}
