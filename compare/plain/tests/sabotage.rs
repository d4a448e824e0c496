//! The wrong versions of `plain` under sabotage/: each edit names one place and still compiles.
//!
//! An edit file holds three lines: `file: ` and the file's path, `old: ` and a part of one line of it,
//! `new: ` and what stands there instead. The driver builds each wrong version and must notice it.

use std::fs;
use std::path::{Path, PathBuf};
use std::process::Command;

const HERE: &str = env!("CARGO_MANIFEST_DIR");

struct Edit {
    name: String,
    file: String,
    old: String,
    new: String,
}

/// The edit in a file: three lines.
fn edit(path: &Path) -> Edit {
    let text = fs::read_to_string(path).unwrap();
    let lines: Vec<&str> = text.lines().collect();
    assert_eq!(lines.len(), 3, "{}", path.display());
    let after = |line: &str, mark: &str| line.strip_prefix(mark).unwrap().to_string();
    Edit {
        name: path.file_stem().unwrap().to_str().unwrap().to_string(),
        file: after(lines[0], "file: "),
        old: after(lines[1], "old: "),
        new: after(lines[2], "new: "),
    }
}

/// Every edit, by name.
fn edits() -> Vec<Edit> {
    let directory = fs::read_dir(Path::new(HERE).join("sabotage")).unwrap();
    let mut paths: Vec<PathBuf> = directory.map(|entry| entry.unwrap().path()).collect();
    paths.retain(|path| {
        path.extension()
            .is_some_and(|extension| extension == "edit")
    });
    paths.sort();
    paths.iter().map(|path| edit(path)).collect()
}

/// The file as the edit leaves it; what it replaces must stand there exactly once.
fn edited(edit: &Edit) -> String {
    let text = fs::read_to_string(Path::new(HERE).join(&edit.file)).unwrap();
    assert_eq!(text.matches(&edit.old).count(), 1, "{}", edit.name);
    assert_ne!(edit.old, edit.new, "{}", edit.name);
    text.replace(&edit.old, &edit.new)
}

#[test]
fn each_edit_names_one_place() {
    let edits = edits();
    assert!(edits.len() >= 18);
    for edit in &edits {
        edited(edit);
    }
}

#[test]
fn each_edited_version_compiles() {
    let room = Path::new(env!("CARGO_TARGET_TMPDIR")).join("sabotage");
    fs::create_dir_all(room.join("src")).unwrap();
    for file in fs::read_dir(Path::new(HERE).join("src")).unwrap() {
        let file = file.unwrap();
        if file.path().is_file() {
            fs::copy(file.path(), room.join("src").join(file.file_name())).unwrap();
        }
    }
    for edit in edits() {
        let whole = fs::read(Path::new(HERE).join(&edit.file)).unwrap();
        fs::write(room.join(&edit.file), edited(&edit)).unwrap();
        let compiled = Command::new("rustc")
            .args(["--edition", "2021", "--crate-type", "lib", "--crate-name"])
            .args(["plain", "--emit", "metadata", "--out-dir"])
            .arg(&room)
            .arg(room.join("src/lib.rs"))
            .output()
            .unwrap();
        let errors = String::from_utf8_lossy(&compiled.stderr);
        assert!(compiled.status.success(), "{}:\n{errors}", edit.name);
        assert!(!errors.contains("warning"), "{}:\n{errors}", edit.name);
        fs::write(room.join(&edit.file), whole).unwrap();
    }
}
