//! Tells the program which compiler built it, links what only the benchmark calls, products, and tells whether
//! `tvarchula-before` has an older library. With the feature `native` it builds ordinary Rust for the machine at hand.

use std::env;
use std::path::Path;
use std::process::Command;

/// A folder with the two archives of an older commit.
const BEFORE: &str = "TVARCHULA_BEFORE_DIR";

fn main() {
    println!("cargo:rerun-if-changed=build.rs");
    println!("cargo:rerun-if-env-changed={BEFORE}");
    println!("cargo:rustc-check-cfg=cfg(before)");
    println!("cargo:rustc-env=BENCH_RUSTC={}", compiler());
    // Where tvarchula-sys has found its own archive.
    if let Some(folder) = env::var_os("DEP_TVARCHULA_FOLDER") {
        link(Path::new(&folder), "products");
    }
    if env::var_os(BEFORE).is_some() {
        println!("cargo:rustc-cfg=before");
    }
    println!("cargo:rustc-check-cfg=cfg(native)");
    if env::var_os("CARGO_FEATURE_NATIVE").is_some() {
        native();
    }
}

/// A shared library: two static ones would each bring what belongs to the language.
fn native() {
    println!("cargo:rerun-if-changed=native");
    println!("cargo:rerun-if-changed=src/ordinary");
    let folder = env::var("OUT_DIR").expect("set by cargo");
    let mut rustc = Command::new(env::var_os("RUSTC").expect("set by cargo"));
    rustc.args(["--edition=2021", "--crate-type=cdylib"]);
    rustc.args(["--crate-name=ordinary_native", "native/lib.rs"]);
    rustc.args(["-Copt-level=3", "-Ctarget-cpu=native", "-Cpanic=abort"]);
    rustc.args(["--out-dir", &folder]);
    let same = env::var_os("HOST") == env::var_os("TARGET");
    if same && rustc.status().is_ok_and(|status| status.success()) {
        println!("cargo:rustc-cfg=native");
        println!("cargo:rustc-link-search=native={folder}");
        println!("cargo:rustc-link-lib=dylib=ordinary_native");
        println!("cargo:rustc-link-arg=-Wl,-rpath,{folder}");
    } else {
        println!("cargo:warning=ordinary Rust cannot be built for this machine: left out");
    }
}

/// The version line of the compiler that cargo runs.
fn compiler() -> String {
    let rustc = env::var_os("RUSTC").expect("set by cargo");
    let output = Command::new(rustc).arg("--version").output();
    let line = output.map(|o| String::from_utf8_lossy(&o.stdout).trim().to_owned());
    line.unwrap_or_else(|_| "rustc of unknown version".to_owned())
}

fn link(folder: &Path, archive: &str) {
    let file = folder.join(format!("lib{archive}.a"));
    if !file.is_file() {
        println!(
            "cargo:warning=there is no {}: make it with `make lib{archive}.a`",
            file.display()
        );
    }
    println!("cargo:rerun-if-changed={}", file.display());
    println!("cargo:rustc-link-search=native={}", folder.display());
    println!("cargo:rustc-link-lib=static={archive}");
}
