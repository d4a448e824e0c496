//! Links the static library `dorgumanna`, which `archive` at the project's root writes for this machine.

use std::env;
use std::path::PathBuf;

fn main() {
    println!("cargo::rerun-if-env-changed=DORGUMANNA_ARCHIVE");
    let package = PathBuf::from(env::var_os("CARGO_MANIFEST_DIR").expect("cargo sets this"));
    let archive = match env::var_os("DORGUMANNA_ARCHIVE") {
        Some(path) => PathBuf::from(path),
        None => package.join("../../target/native/libdorgumanna.a"),
    };
    if !(archive.is_absolute() && archive.ends_with("libdorgumanna.a")) {
        println!(
            "cargo::error=DORGUMANNA_ARCHIVE is {}: an absolute path of a file libdorgumanna.a is needed",
            archive.display()
        );
        return;
    }
    println!("cargo::rerun-if-changed={}", archive.display());
    if !archive.is_file() {
        println!(
            "cargo::error=there is no archive {}: run ./archive at the project's root, or name another one in DORGUMANNA_ARCHIVE",
            archive.display()
        );
        return;
    }
    let folder = archive.parent().expect("a file is in a folder");
    println!("cargo::rustc-link-search=native={}", folder.display());
    println!("cargo::rustc-link-lib=static=dorgumanna");
}
