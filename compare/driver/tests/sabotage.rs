//! Wrong versions of `plain`, each put to the driver as `ask`: it notices every
//! one of them, and does not object to the right one.

use std::fs;
use std::path::{Path, PathBuf};
use std::process::{Command, Output};
use std::sync::atomic::{AtomicUsize, Ordering};
use std::thread;

/// Cases by which a wrong version must be noticed; the run ends where it is.
const COUNT: &str = "40000";

/// The folder of `plain`.
fn plain() -> PathBuf {
    Path::new(env!("CARGO_MANIFEST_DIR")).join("../plain")
}

/// A wrong version: a part of one line of a file, and what stands there instead.
struct Edit {
    name: String,
    file: String,
    old: String,
    new: String,
}

impl Edit {
    fn read(path: &Path) -> Edit {
        let text = fs::read_to_string(path).unwrap();
        let mut lines = text.lines();
        let mut after = |mark: &str| {
            lines
                .next()
                .unwrap()
                .strip_prefix(mark)
                .unwrap()
                .to_string()
        };
        Edit {
            name: path.file_stem().unwrap().to_str().unwrap().into(),
            file: after("file: "),
            old: after("old: "),
            new: after("new: "),
        }
    }

    fn apply(&self, room: &Path) {
        let path = room.join(&self.file);
        let text = fs::read_to_string(&path).unwrap();
        assert_eq!(
            text.matches(&self.old).count(),
            1,
            "{}: one place to edit",
            self.name
        );
        fs::write(path, text.replace(&self.old, &self.new)).unwrap();
    }
}

/// All wrong versions, by name.
fn edits() -> Vec<Edit> {
    let folder = fs::read_dir(plain().join("sabotage")).unwrap();
    let mut paths: Vec<PathBuf> = folder.map(|entry| entry.unwrap().path()).collect();
    paths.retain(|path| {
        path.extension()
            .is_some_and(|extension| extension == "edit")
    });
    paths.sort();
    paths.iter().map(|path| Edit::read(path)).collect()
}

/// A fresh copy of the sources of `plain`.
fn copy(name: &str) -> PathBuf {
    let room = Path::new(env!("CARGO_TARGET_TMPDIR"))
        .join("wrong")
        .join(name);
    if room.exists() {
        fs::remove_dir_all(&room).unwrap();
    }
    fs::create_dir_all(room.join("src/bin")).unwrap();
    for folder in ["src", "src/bin"] {
        for file in fs::read_dir(plain().join(folder))
            .unwrap()
            .map(|file| file.unwrap())
        {
            if file.path().is_file() {
                fs::copy(file.path(), room.join(folder).join(file.file_name())).unwrap();
            }
        }
    }
    room
}

/// The server of a copy, built.
fn built(room: &Path) -> PathBuf {
    let rustc = |arguments: &[&str]| {
        let done = Command::new("rustc")
            .current_dir(room)
            .args(["--edition", "2021", "-O"])
            .args(arguments)
            .output()
            .unwrap();
        assert!(
            done.status.success(),
            "{}",
            String::from_utf8_lossy(&done.stderr)
        );
    };
    rustc(&["--crate-type", "lib", "--crate-name", "plain", "src/lib.rs"]);
    rustc(&[
        "--extern",
        "plain=libplain.rlib",
        "-o",
        "plain-ask",
        "src/bin/plain-ask.rs",
    ]);
    room.join("plain-ask")
}

/// A run of the driver with a server as `ask`.
fn run(server: &Path, patience: &str) -> Output {
    Command::new(env!("CARGO_BIN_EXE_compare"))
        .args([
            "run",
            "--seed",
            "5",
            "--count",
            COUNT,
            "--tell",
            "1",
            "--patience",
            patience,
            "--ask",
        ])
        .arg(format!("'{}'", server.display()))
        .output()
        .unwrap()
}

/// Sequences of edits with a server as `ask`.
fn sequences(server: &Path, count: &str) -> Output {
    Command::new(env!("CARGO_BIN_EXE_compare"))
        .args(["sequences", "--seed", "5", "--count", count])
        .args(["--tell", "1", "--ask"])
        .arg(format!("'{}'", server.display()))
        .output()
        .unwrap()
}

fn text(output: &Output) -> String {
    String::from_utf8_lossy(&output.stdout).into()
}

#[test]
fn every_wrong_version_is_noticed() {
    let edits = edits();
    assert!(edits.len() >= 15);
    let next = AtomicUsize::new(0);
    thread::scope(|scope| {
        for _ in 0..thread::available_parallelism().map_or(1, usize::from) {
            scope.spawn(|| {
                while let Some(edit) = edits.get(next.fetch_add(1, Ordering::Relaxed)) {
                    let room = copy(&edit.name);
                    edit.apply(&room);
                    let output = run(&built(&room), "0");
                    assert_eq!(output.status.code(), Some(1), "{}: not noticed", edit.name);
                    assert!(
                        text(&output).contains("DISAGREEMENT of ask"),
                        "{}",
                        edit.name
                    );
                    fs::remove_dir_all(&room).unwrap();
                }
            });
        }
    });
}

#[test]
fn a_read_that_changes_its_page_is_noticed() {
    let room = copy("reversing");
    let answer = "reply(calls::layout(page, width), |yes| number(u64::from(yes)))";
    let edit = Edit {
        name: "reversing".into(),
        file: "src/ask.rs".into(),
        old: format!("18 => {answer},"),
        new: format!("18 => {{ let reply = {answer}; page.reverse(); reply }}"),
    };
    edit.apply(&room);
    let output = run(&built(&room), "0");
    assert_eq!(output.status.code(), Some(1));
    assert!(text(&output).contains("a page that is only read stays as it is"));
    fs::remove_dir_all(&room).unwrap();
}

#[test]
fn the_right_version_agrees() {
    let room = copy("right");
    let output = run(&built(&room), "0");
    assert_eq!(output.status.code(), Some(0), "{}", text(&output));
    fs::remove_dir_all(&room).unwrap();
}

#[test]
fn the_right_version_replays_the_recording() {
    let room = copy("replaying");
    let server = built(&room);
    let [requests, answers] = ["stdin", "stdout"].map(|name| room.join(name));
    let recorded = Command::new(env!("CARGO_BIN_EXE_compare"))
        .args(["record", "--out-stdin"])
        .arg(&requests)
        .arg("--out-stdout")
        .arg(&answers)
        .output()
        .unwrap();
    assert_eq!(recorded.status.code(), Some(0), "{}", text(&recorded));
    let replayed = Command::new(server)
        .stdin(fs::File::open(&requests).unwrap())
        .output()
        .unwrap();
    assert!(replayed.stdout == fs::read(&answers).unwrap());
    fs::remove_dir_all(&room).unwrap();
}

#[test]
fn a_disagreement_is_made_small() {
    let room = copy("small");
    let edits = edits();
    let edit = edits
        .iter()
        .find(|edit| edit.name.contains("copy-key-15"))
        .unwrap();
    edit.apply(&room);
    let told = text(&run(&built(&room), "10"));
    let steps = told.lines().filter(|line| line.starts_with("    ")).count();
    assert!((1..=3).contains(&steps), "{told}");
    assert!(told.contains(": key \"\" (empty), value 0"), "{told}");
    assert!(
        told.contains("first difference (paper against ask): number 0 against 15"),
        "{told}"
    );
    fs::remove_dir_all(&room).unwrap();
}

#[test]
fn the_right_version_agrees_in_sequences() {
    let room = copy("lasting");
    let output = sequences(&built(&room), "8000");
    assert_eq!(output.status.code(), Some(0), "{}", text(&output));
    assert!(text(&output).contains("the longest of 1000 calls"));
    fs::remove_dir_all(&room).unwrap();
}

#[test]
fn wrong_versions_are_noticed_in_sequences() {
    let marks = ["16-", "21-", "56-", "59-"];
    for edit in edits() {
        if !marks.iter().any(|mark| edit.name.starts_with(mark)) {
            continue;
        }
        let room = copy(&format!("sequence-{}", edit.name));
        edit.apply(&room);
        let output = sequences(&built(&room), "8000");
        assert_eq!(output.status.code(), Some(1), "{}: not noticed", edit.name);
        assert!(
            text(&output).contains("DISAGREEMENT of ask"),
            "{}",
            edit.name
        );
        fs::remove_dir_all(&room).unwrap();
    }
}

#[test]
fn a_refused_edit_that_changes_its_page_is_noticed_in_sequences() {
    let room = copy("scratching");
    let answer = "reply(calls::insert(page, width, key, a), index)";
    let edit = Edit {
        name: "scratching".into(),
        file: "src/ask.rs".into(),
        old: format!("3 => {answer},"),
        new: format!(
            "3 => {{ let reply = {answer}; if reply.number == 11 {{ page[16_300] ^= 1; }} reply }}"
        ),
    };
    edit.apply(&room);
    let output = sequences(&built(&room), "8000");
    assert_eq!(output.status.code(), Some(1));
    let told = text(&output);
    assert!(told.contains("in insert (seed 5, sequence "), "{told}");
    assert!(told.contains("the page afterwards, byte 16300"), "{told}");
    fs::remove_dir_all(&room).unwrap();
}
