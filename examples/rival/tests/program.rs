//! The program itself: its exit status, arguments that it does not take, and a reader that closes the pipe.
use std::io::Read;
use std::process::{Command, Stdio};

fn rival() -> Command {
    Command::new(env!("CARGO_BIN_EXE_rival"))
}

#[test]
fn it_says_equal_and_ends_with_0() {
    let output = rival().output().unwrap();
    let text = String::from_utf8(output.stdout).unwrap();
    assert!(output.status.success());
    assert!(text.contains("The public views: equal."));
    assert!(text.contains("tells them apart"));
    assert!(text.contains("`demand_3`"));
}

#[test]
fn arguments_are_refused() {
    let output = rival().arg("now").output().unwrap();
    assert_eq!(output.status.code(), Some(1));
    assert!(output.stdout.is_empty());
    assert!(String::from_utf8(output.stderr)
        .unwrap()
        .starts_with("usage: rival"));
}

#[test]
fn a_closed_pipe_is_no_panic() {
    let mut child = rival()
        .stdout(Stdio::piped())
        .stderr(Stdio::piped())
        .spawn()
        .unwrap();
    drop(child.stdout.take());
    let status = child.wait().unwrap();
    let mut errors = String::new();
    child
        .stderr
        .take()
        .unwrap()
        .read_to_string(&mut errors)
        .unwrap();
    assert_eq!(status.code(), Some(1));
    assert_eq!(errors, "");
}
