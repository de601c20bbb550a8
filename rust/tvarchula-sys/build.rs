//! Tells rustc where the archive is. Without it everything but linking works.

use std::env;
use std::path::{Path, PathBuf};

const OVERRIDE: &str = "TVARCHULA_LIB_DIR";
const ARCHIVE: &str = "libtvarchula.a";

fn main() {
    println!("cargo:rerun-if-env-changed={OVERRIDE}");
    println!("cargo:rerun-if-changed=build.rs");
    let folders = folders();
    match folders.iter().find(|folder| folder.join(ARCHIVE).is_file()) {
        Some(folder) => found(folder),
        None => missing(&folders),
    }
    // Not bundled: a library over this one is built without the archive, and only a program wants it.
    println!("cargo:rustc-link-lib=static:-bundle=tvarchula");
}

/// The folder that the environment names; else target/staticlib of this folder and of those above.
fn folders() -> Vec<PathBuf> {
    if let Some(named) = env::var_os(OVERRIDE) {
        return vec![PathBuf::from(named)];
    }
    let here = PathBuf::from(env::var_os("CARGO_MANIFEST_DIR").expect("set by cargo"));
    let above = here.ancestors();
    above
        .map(|folder| folder.join("target/staticlib"))
        .collect()
}

fn found(folder: &Path) {
    println!("cargo:rerun-if-changed={}", folder.join(ARCHIVE).display());
    println!("cargo:rustc-link-search=native={}", folder.display());
    // For build scripts of crates over this one: DEP_TVARCHULA_FOLDER.
    println!("cargo:folder={}", folder.display());
}

/// A file that is not there is looked for again at the next build.
fn missing(folders: &[PathBuf]) {
    for folder in folders {
        println!("cargo:rerun-if-changed={}", folder.join(ARCHIVE).display());
    }
    println!(
        "cargo:warning=there is no {ARCHIVE}, so no program links: make it with `make libtvarchula.a` \
         in the repository, or name its folder in {OVERRIDE} (an absolute path)"
    );
}
