//! The program `check_vectors`: all stored rows agree.

use std::fs;
use std::process::Command;

#[test]
fn stored_rows_agree() {
    let rows = concat!(env!("CARGO_MANIFEST_DIR"), "/tests/rows");
    // It is of another package of the workspace, which `cargo test` without a name does not build.
    let output = Command::new(env!("CARGO"))
        .args(["run", "--quiet", "--offline", "--package", "programs", "--bin", "check_vectors", "--"])
        .arg(format!("{rows}/stored"))
        .current_dir(env!("CARGO_MANIFEST_DIR"))
        .output()
        .unwrap();
    assert!(output.status.success(), "{}", String::from_utf8_lossy(&output.stderr));
    assert_eq!(String::from_utf8(output.stdout).unwrap(), fs::read_to_string(format!("{rows}/agreeing")).unwrap());
}
