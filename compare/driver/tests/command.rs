//! The driver as a command: what it prints and how it ends.

use std::fs;
use std::path::Path;
use std::process::{Command, Output};

fn compare(arguments: &[&str]) -> Output {
    Command::new(env!("CARGO_BIN_EXE_compare"))
        .args(arguments)
        .output()
        .unwrap()
}

fn text(output: &Output) -> String {
    String::from_utf8_lossy(&output.stdout).into()
}

#[test]
fn a_run_agrees_and_shows_what_it_shall() {
    let output = compare(&[
        "run", "--count", "100000", "--seed", "11", "--ask", "none", "--shows",
    ]);
    assert_eq!(output.status.code(), Some(0), "{}", text(&output));
    assert!(text(&output).contains("doradb and plain alone"));
}

#[test]
fn one_seed_gives_one_run() {
    let [one, other] = [0, 1].map(|_| compare(&["run", "--count", "3000", "--ask", "none"]));
    assert_eq!(text(&one), text(&other));
}

#[test]
fn sequences_agree_and_show_what_they_shall() {
    let arguments = ["sequences", "--count", "30000", "--ask", "none", "--shows"];
    let [one, other] = [0, 1].map(|_| compare(&arguments));
    assert_eq!(one.status.code(), Some(0), "{}", text(&one));
    assert_eq!(text(&one), text(&other));
}

#[test]
fn given_pages_are_compared() {
    let name = Path::new(env!("CARGO_TARGET_TMPDIR")).join("given.page");
    let mut page = vec![0; plain::PAGE];
    plain::begin(&mut page, 0, 0, b"", 0, b"", true).unwrap();
    for i in 0..70_u8 {
        plain::insert(&mut page, 8, &[i, 1, 2, 3, 4], u64::from(i)).unwrap();
    }
    fs::write(&name, page).unwrap();
    let file = name.to_str().unwrap();
    let output = compare(&[
        "run", "--count", "2000", "--ask", "none", "--page", file, "--width", "8",
    ]);
    assert_eq!(output.status.code(), Some(0), "{}", text(&output));
}

#[test]
fn garbage_is_compared() {
    let folder = Path::new(env!("CARGO_TARGET_TMPDIR"));
    let mut arguments: Vec<String> = ["run", "--count", "4000", "--ask", "none"]
        .map(String::from)
        .to_vec();
    for (at, length) in [plain::PAGE, plain::PAGE, 0, 100, 20_000]
        .into_iter()
        .enumerate()
    {
        let name = folder.join(format!("garbage-{at}.page"));
        let bytes: Vec<u8> = (0..length).map(|i| (i * i / 7 + at * i) as u8).collect();
        fs::write(&name, bytes).unwrap();
        arguments.extend(["--page".into(), name.to_str().unwrap().into()]);
    }
    let arguments: Vec<&str> = arguments.iter().map(String::as_str).collect();
    let output = compare(&arguments);
    assert_eq!(output.status.code(), Some(0), "{}", text(&output));
}

#[test]
fn departures_are_as_written() {
    let output = compare(&["departures", "--ask", "none"]);
    assert_eq!(output.status.code(), Some(0), "{}", text(&output));
    assert!(text(&output).contains("| re-keyed slot 7 |"));
}

#[test]
fn a_program_that_answers_nothing_is_an_error() {
    let output = compare(&["run", "--count", "10", "--ask", "true"]);
    assert_eq!(output.status.code(), Some(2));
    assert!(String::from_utf8_lossy(&output.stderr).contains("does not answer load and dump"));
}

#[test]
fn a_run_of_no_case_is_an_error() {
    for name in ["--count", "--tell"] {
        let output = compare(&["run", "--ask", "none", name, "0"]);
        assert_eq!(output.status.code(), Some(2), "{name}");
        assert_eq!(text(&output), "");
        let errors = String::from_utf8_lossy(&output.stderr);
        assert!(errors.contains(&format!("{name} wants a number above 0")));
    }
}

#[test]
fn a_bench_without_an_archive_is_an_error() {
    let output = Command::new(env!("CARGO_BIN_EXE_compare"))
        .args(["bench", "--quick"])
        .env("DORGUMANNA_ARCHIVE", "there/is/none.a")
        .output()
        .unwrap();
    assert_eq!(output.status.code(), Some(2));
    assert_eq!(text(&output), "");
    let errors = String::from_utf8_lossy(&output.stderr);
    assert!(errors.contains("there/is/none.a: ./archive at the project's root"));
}

#[test]
fn unknown_words_get_the_usage() {
    for arguments in [
        &["walk"][..],
        &[],
        &["run", "--speed", "3"],
        &["run", "--count", "x"],
        &["run", "--calls", "0"],
        &["sequences", "--count", "0"],
    ] {
        assert_eq!(compare(arguments).status.code(), Some(2));
    }
}
