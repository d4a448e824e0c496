//! Links the static library `dorgumanna`, compiled for this machine, and tells the program what it is made of.

use std::env;
use std::path::PathBuf;
use std::process::Command;

/// Where the archive is looked for when `DORGUMANNA_ARCHIVE` is not set, from this folder.
const DEFAULT_ARCHIVE: &str = "../../target/native/libdorgumanna.a";

fn main() {
    println!("cargo::rerun-if-env-changed=DORGUMANNA_ARCHIVE");
    let package = PathBuf::from(env::var_os("CARGO_MANIFEST_DIR").expect("cargo sets this"));
    let (archive, told) = match env::var_os("DORGUMANNA_ARCHIVE") {
        Some(path) => (PathBuf::from(path), "`DORGUMANNA_ARCHIVE` names it"),
        None => (package.join(DEFAULT_ARCHIVE), "`./archive` makes it"),
    };
    println!("cargo::rerun-if-changed={}", archive.display());
    if !archive.is_file() {
        println!(
            "cargo::error=there is no archive {}: make it with ./archive at the project's root, or set DORGUMANNA_ARCHIVE",
            archive.display()
        );
        return;
    }
    println!("cargo::rustc-link-arg={}", archive.display());
    println!("cargo::rustc-env=SPEED_ARCHIVE={told}");
    println!("cargo::rustc-env=SPEED_RUSTC={}", compiler());
}

/// The compiler's name and version.
fn compiler() -> String {
    let rustc = env::var_os("RUSTC").unwrap_or("rustc".into());
    let said = Command::new(rustc).arg("--version").output();
    let text = said.map(|output| String::from_utf8_lossy(&output.stdout).into_owned());
    let words = text.unwrap_or_default();
    let words: Vec<&str> = words.split_whitespace().take(2).collect();
    words.join(" ")
}
