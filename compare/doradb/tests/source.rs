//! Where doradb's sources are missing, the build says what to set.

use std::path::Path;
use std::process::Command;

#[test]
fn a_missing_folder_is_named() {
    let room = Path::new(env!("CARGO_TARGET_TMPDIR")).join("missing");
    let build = Command::new(env!("CARGO"))
        .args(["build", "--offline", "--package", "doradb", "--target-dir"])
        .arg(&room)
        .current_dir(env!("CARGO_MANIFEST_DIR"))
        .env("DORADB_SRC", room.join("nowhere"))
        .output()
        .unwrap();
    let errors = String::from_utf8_lossy(&build.stderr);
    assert!(!build.status.success());
    assert!(
        errors.contains("set DORADB_SRC to a checkout of jiangzhe/doradb"),
        "{errors}"
    );
}
