//! Links copies of older archives whose functions have other names, where the environment names their
//! folder, and declares these.

use std::env;
use std::fs;
use std::path::{Path, PathBuf};
use std::process::Command;

/// A folder with the archives of an older commit: `libtvarchula.a`, and `libproducts.a` for the benchmark.
const FOLDER: &str = "TVARCHULA_BEFORE_DIR";
/// The version of their header, where that is not the present one: only 0.6 is known here.
const VERSION: &str = "TVARCHULA_BEFORE_VERSION";
const OLDER: &str = "0.6";
/// The archives, and where their functions are declared.
const ARCHIVES: [(&str, &str); 2] = [
    ("tvarchula", "../tvarchula-sys/src/functions.rs"),
    ("products", "../bench/src/linked/products.rs"),
];

fn main() {
    println!("cargo:rerun-if-changed=build.rs");
    println!("cargo:rerun-if-env-changed={FOLDER}");
    println!("cargo:rerun-if-env-changed={VERSION}");
    println!("cargo:rustc-check-cfg=cfg(linked)");
    println!("cargo:rustc-check-cfg=cfg(older)");
    let Some(folder) = env::var_os(FOLDER) else {
        return;
    };
    for (name, functions) in ARCHIVES {
        link(Path::new(&folder), name, functions);
    }
    println!("cargo:rustc-cfg=linked");
    match env::var(VERSION).as_deref() {
        Ok(OLDER) => println!("cargo:rustc-cfg=older"),
        Ok(other) if !other.is_empty() => panic!("{VERSION} is {other}, not {OLDER} or unset"),
        _ => (),
    }
}

fn file(folder: &Path, archive: &str) -> PathBuf {
    folder.join(format!("lib{archive}.a"))
}

fn link(folder: &Path, archive: &str, functions: &str) {
    let out = PathBuf::from(env::var_os("OUT_DIR").expect("set by cargo"));
    let text = fs::read_to_string(functions).expect("stands beside this crate");
    let lines = || text.lines().filter(|line| !line.starts_with("//!"));
    let declared = lines().map(declared).collect::<String>();
    fs::write(out.join(format!("{archive}.rs")), declared).expect("the folder is cargo's");
    let renamed = format!("before_{archive}");
    let (from, to) = (file(folder, archive), file(&out, &renamed));
    println!("cargo:rerun-if-changed={functions}");
    println!("cargo:rerun-if-changed={}", from.display());
    if from.is_file() {
        rename(&from, &to, lines().filter_map(name));
        println!("cargo:rustc-link-search=native={}", out.display());
        println!("cargo:rustc-link-lib=static:-bundle={renamed}");
    } else {
        println!("cargo:warning=there is no {}", from.display());
    }
}

/// The name of the function whose declaration begins in a line.
fn name(line: &str) -> Option<&str> {
    line.trim_start().strip_prefix("pub fn ")?.split('(').next()
}

/// A line of declarations, with the new name of the function that begins there.
fn declared(line: &str) -> String {
    let line = line.replace("use crate::", "use tvarchula_sys::");
    let renamed = name(&line).map(|name| format!("#[link_name = \"before_{name}\"]\n"));
    format!("{}{line}\n", renamed.unwrap_or_default())
}

fn rename<'a>(from: &Path, to: &Path, functions: impl Iterator<Item = &'a str>) {
    let new_names = functions.map(|name| format!("--redefine-sym={name}=before_{name}"));
    let mut objcopy = Command::new("objcopy");
    let status = objcopy.args(new_names).arg(from).arg(to).status();
    let done = status.is_ok_and(|status| status.success());
    assert!(done, "objcopy (binutils) cannot copy {}", from.display());
}
