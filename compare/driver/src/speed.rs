//! The command `bench`: builds the package `speed`, which links this project's archive, and runs it.

use crate::options::Options;
use std::ffi::OsString;
use std::path::{Path, PathBuf};
use std::process::Command;

/// The archive, when `DORGUMANNA_ARCHIVE` does not name another, from the project's root.
const ARCHIVE: &str = "target/native/libdorgumanna.a";

/// The folder of a whole bench's figures, from the project's root.
const DOCS: &str = "docs";

/// Figures of all calls into docs/, or where `--out` says; those of one call, and those of a quick bench, are printed
/// where nothing else is said.
pub fn bench(options: &Options) -> Result<bool, String> {
    let named = std::env::var_os("DORGUMANNA_ARCHIVE").map(absolute);
    let own = root().join(ARCHIVE);
    let archive = named.as_ref().unwrap_or(&own);
    if !archive.is_file() {
        return Err(format!(
            "there is no archive {}: ./archive at the project's root proves the library and makes it; or let \
             DORGUMANNA_ARCHIVE name another",
            archive.display()
        ));
    }
    let status = Command::new(std::env::var_os("CARGO").unwrap_or("cargo".into()))
        .args(["run", "--quiet", "--release", "--package", "speed", "--"])
        .args(words(options))
        .envs(named.map(|archive| ("DORGUMANNA_ARCHIVE", archive)))
        .current_dir(root().join("compare"))
        .status()
        .map_err(|error| format!("cargo, which builds and runs `speed`: {error}"))?;
    match status.success() {
        true => Ok(true),
        false => Err(format!("the bench was not made: {status}")),
    }
}

/// The project's root, two folders above this package.
fn root() -> PathBuf {
    let package = Path::new(env!("CARGO_MANIFEST_DIR"));
    package.ancestors().skip(2).take(1).collect()
}

/// A path that means the same in every folder.
fn absolute(path: impl AsRef<Path>) -> PathBuf {
    let path = path.as_ref();
    std::path::absolute(path).unwrap_or(path.into())
}

/// What `speed` is told.
fn words(options: &Options) -> Vec<OsString> {
    let mut words: Vec<OsString> = vec!["bench".into()];
    if options.quick {
        words.push("--quick".into());
    }
    if let Some(call) = &options.call {
        words.extend(["--call".into(), call.into()]);
    }
    let whole = options.call.is_none() && !options.quick;
    match &options.out {
        Some(folder) => words.extend(["--out".into(), absolute(folder).into()]),
        None if whole => words.extend(["--out".into(), root().join(DOCS).into()]),
        None => {}
    }
    words
}
