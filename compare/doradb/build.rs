//! Lays doradb's files out for `src/lib.rs`: three files are compiled where
//! they stand, and a few items are cut unchanged from three others. For timing,
//! the three files are compiled without the attribute that keeps the layout
//! verdict out of release builds.

use std::path::{Path, PathBuf};
use std::{env, fs};

/// Where the sources are looked for when `DORADB_SRC` is not set, from `compare/`.
const DEFAULT_SOURCE: &str = "../../shared/docs/src";

/// Files compiled whole, byte for byte.
const WHOLE: [&str; 3] = ["hint", "node", "value"];

/// Items cut from a file: the file below `doradb-storage/src`, what the cut
/// module imports, and how the first line of each item begins.
const CUT: [(&str, &str, &[&str]); 3] = [
    (
        "index/btree/key.rs",
        "use crate::memcmp::MemCmpKey;\nuse std::cmp::Ordering;\n",
        &[
            "pub(crate) type BTreeKey ",
            "enum KeySuffix<",
            "pub(crate) struct BTreeKeyView<",
            "impl<'a> BTreeKeyView<",
        ],
    ),
    (
        "index/btree/mod.rs",
        "use super::BTreeValue;\n",
        &[
            "pub(crate) enum BTreeDelete ",
            "impl BTreeDelete ",
            "pub(crate) enum BTreeUpdate<",
            "impl<V: BTreeValue> BTreeUpdate<",
        ],
    ),
    ("index/util.rs", "", &["pub(crate) trait Maskable"]),
];

/// What keeps the layout verdict out of a build without debug assertions.
const CHECKED_ONLY: &str = "#[cfg(any(test, debug_assertions))]";

fn main() {
    println!("cargo::rerun-if-env-changed=DORADB_SRC");
    println!("cargo::rerun-if-changed=../doradb/build.rs");
    if let Err(message) = lay_out() {
        println!("cargo::error={message}");
    }
}

fn lay_out() -> Result<(), String> {
    let source = source_folder()?;
    let out = PathBuf::from(env::var_os("OUT_DIR").expect("cargo sets OUT_DIR"));
    let mut modules = String::new();
    for name in WHOLE {
        let mut path = source.join(format!("index/btree/{name}.rs"));
        let text = read(&path)?;
        if env::var_os("CARGO_FEATURE_TIMED").is_some() {
            path = out.join(format!("{name}.rs"));
            let lines = text.lines().filter(|line| line.trim() != CHECKED_ONLY);
            write(&path, &lines.collect::<Vec<_>>().join("\n"))?;
        }
        modules += &format!("#[path = {path:?}]\nmod {name};\n");
    }
    write(&out.join("whole.rs"), &modules)?;
    for (file, imports, items) in CUT {
        let text = read(&source.join(file))?;
        let mut cut = String::from(imports);
        for start in items {
            cut += item(&text, start).ok_or(format!("{file} holds no item `{start}...`"))?;
            cut += "\n";
        }
        write(&out.join(file.replace('/', "_")), &cut)?;
    }
    Ok(())
}

/// The folder `doradb-storage/src` of the sources in use.
fn source_folder() -> Result<PathBuf, String> {
    let package = PathBuf::from(env::var_os("CARGO_MANIFEST_DIR").expect("cargo sets this"));
    let root = match env::var_os("DORADB_SRC") {
        Some(root) => PathBuf::from(root),
        None => package.join("..").join(DEFAULT_SOURCE),
    };
    let source = root.join("doradb-storage/src");
    source.canonicalize().map_err(|_| {
        format!(
            "doradb's sources are not at {}: set DORADB_SRC to a checkout of jiangzhe/doradb \
             (commit 67b1ec4fbe) or to another folder that holds doradb-storage/src",
            root.display()
        )
    })
}

/// The item of `text` whose first line begins with `start`, with the comments
/// and attributes above it, up to its closing brace or semicolon.
fn item<'a>(text: &'a str, start: &str) -> Option<&'a str> {
    let at = match text.starts_with(start) {
        true => 0,
        false => text.find(&format!("\n{start}"))? + 1,
    };
    let end = at + item_length(&text[at..])?;
    let mut begin = at;
    for line in text[..at].lines().rev() {
        if !line.starts_with("///") && !line.starts_with("#[") {
            break;
        }
        begin -= line.len() + 1;
    }
    Some(&text[begin..end])
}

/// How many bytes the item at the start of `text` is long.
fn item_length(text: &str) -> Option<usize> {
    let mut depth = 0usize;
    for (at, byte) in text.bytes().enumerate() {
        match byte {
            b'{' => depth += 1,
            b'}' if depth == 1 => return Some(at + 1),
            b'}' => depth -= 1,
            b';' if depth == 0 => return Some(at + 1),
            _ => {}
        }
    }
    None
}

fn read(path: &Path) -> Result<String, String> {
    println!("cargo::rerun-if-changed={}", path.display());
    fs::read_to_string(path).map_err(|error| {
        format!(
            "{}: {error}: set DORADB_SRC to a whole checkout",
            path.display()
        )
    })
}

fn write(path: &Path, text: &str) -> Result<(), String> {
    fs::write(path, text).map_err(|error| format!("{}: {error}", path.display()))
}
