//! A build without the archive ends with a plain error. It runs cargo and is left out of the usual tests:
//! `cargo test --offline --test missing_archive -- --ignored`

use std::process::Command;

#[test]
#[ignore = "runs cargo"]
fn a_missing_archive_is_a_plain_error() {
    // a folder of its own, so that the build under test is not waited for
    let target = concat!(env!("CARGO_TARGET_TMPDIR"), "/missing_archive");
    let output = Command::new(env!("CARGO"))
        .args(["build", "--offline"])
        .current_dir(env!("CARGO_MANIFEST_DIR"))
        .env("CARGO_TARGET_DIR", target)
        .env("PENG_ROBINSON_BOARD_LIB", "/nonexistent")
        .output()
        .expect("cargo runs");
    let errors = String::from_utf8_lossy(&output.stderr);
    assert!(!output.status.success());
    let expected =
        "/nonexistent/libgateway.a is missing: `tools/build gateway` at the project's root writes it";
    assert!(errors.contains(expected), "{errors}");
    assert!(!errors.contains("panicked") && errors.lines().count() <= 4, "{errors}");
}
