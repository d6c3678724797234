//! Finds the two archives: the pool's, which `rt lib` makes, and the one of the C library's memory calls, which the
//! toolchain has. `ZANGIPUK_LIB` and `RATTLE_C` name their folders where they lie elsewhere.

use std::env;
use std::path::{Path, PathBuf};

fn folder(name: &str, else_at: PathBuf) -> PathBuf {
    println!("cargo:rerun-if-env-changed={name}");
    env::var_os(name).map_or(else_at, PathBuf::from)
}

fn link(folder: &Path, name: &str) {
    let archive = folder.join(format!("lib{name}.a"));
    assert!(
        archive.is_file(),
        "{} is not there: run `rt lib` in crates/zangipuk_c",
        archive.display()
    );
    println!("cargo:rerun-if-changed={}", archive.display());
    println!("cargo:rustc-link-search=native={}", folder.display());
    println!("cargo:rustc-link-lib=static={name}");
}

fn main() {
    let here = PathBuf::from(env::var_os("CARGO_MANIFEST_DIR").unwrap());
    let made = folder("ZANGIPUK_LIB", here.join("../../crates/zangipuk_c/out"));
    let toolchain = folder("RATTLE_C", kit().join("c"));
    link(&made, "zangipuk_c");
    link(&toolchain, "libc_c");
}

// The kit's folder: that of the page which `rt doc` prints.
fn kit() -> PathBuf {
    let page = std::process::Command::new("rt")
        .arg("doc")
        .output()
        .map(|o| String::from_utf8_lossy(&o.stdout).trim().to_string())
        .unwrap_or_default();
    PathBuf::from(page)
        .parent()
        .map(PathBuf::from)
        .unwrap_or_default()
}
