//! The program: bad arguments, a short measurement, a reader that closes the pipe.
use std::io::Read;
use std::process::{Command, Output, Stdio};

use gateway::measure::{free_running, paced};
use gateway::mixes::{request, Mix};
use gateway::slots::Slots;

fn gateway(words: &[&str]) -> Output {
    Command::new(env!("CARGO_BIN_EXE_gateway"))
        .args(words)
        .output()
        .unwrap()
}

#[test]
fn bad_arguments_give_1_and_the_usage() {
    let bad: [&[&str]; 17] = [
        &[],
        &["serve"],
        &["measure", "now"],
        &["measure", "--turns"],
        &["measure", "--turns", "0"],
        &["measure", "--turns", "999"],
        &["measure", "--turns", "1000001"],
        &["measure", "--turns", "100,000"],
        &["measure", "--turns", "1e5"],
        &["measure", "--slot-us", "0"],
        &["measure", "--slot-us", "-1"],
        &["measure", "--slot-us", "ten"],
        &["measure", "--slot-us", "NaN"],
        &["measure", "--slot-us", "99999999999999999999999999"],
        &["measure", "--slot-us", "1000001"],
        &["measure", "--gap-us", "0"],
        &["measure", "--gap-us", "18446744073709551616"],
    ];
    for words in bad {
        let output = gateway(words);
        let errors = String::from_utf8(output.stderr).unwrap();
        assert_eq!(output.status.code(), Some(1), "{words:?}");
        assert!(output.stdout.is_empty(), "{words:?}");
        assert!(errors.contains("usage: gateway measure"), "{words:?}");
        assert!(!errors.contains("panicked"), "{words:?}");
    }
}

#[cfg(unix)]
#[test]
fn words_that_are_no_text_are_refused() {
    use std::os::unix::ffi::OsStringExt;
    let word = std::ffi::OsString::from_vec(vec![0xff, 0xfe]);
    let mut command = Command::new(env!("CARGO_BIN_EXE_gateway"));
    let output = command
        .arg("measure")
        .arg("--turns")
        .arg(word)
        .output()
        .unwrap();
    assert_eq!(output.status.code(), Some(1));
}

#[test]
fn a_short_measurement_prints_every_test() {
    let output = gateway(&[
        "measure",
        "--turns",
        "1000",
        "--slot-us",
        "20",
        "--gap-us",
        "10",
    ]);
    let text = String::from_utf8(output.stdout).unwrap();
    assert!(output.status.success());
    assert!(text.contains("winter evaluates in its first 9 turns,\ncatalogue in 8."));
    assert_eq!(text.matches("middle nine tenths         t").count(), 14);
    assert_eq!(text.matches("the same, by rounds        t").count(), 14);
    assert_eq!(text.matches("turns that ended after their slot").count(), 2);
    assert_eq!(text.matches("Not measured: power, caches").count(), 1);
}

/// As many turns as asked for, each with its place in the span.
#[test]
fn every_turn_is_counted_with_its_place() {
    let requests = [Mix::winter(), Mix::catalogue()].map(|mix| request(&mix).unwrap());
    let pair = [&requests[0], &requests[1]];
    let slots = Slots::new(20_000, 10_000).unwrap();
    for samples in [
        free_running(pair, 700).unwrap(),
        paced(pair, 700, slots).unwrap(),
    ] {
        for s in samples {
            assert_eq!(
                (s.inside.len(), s.interval.len(), s.turn.len()),
                (700, 700, 700)
            );
            assert!(s.offset.is_empty() || s.offset.len() == 700);
            assert!(s.turn.iter().all(|turn| (1..=30).contains(turn)));
            // 20 turns are left out before each block of 240, so the first counted is turn 6 of the span
            assert_eq!(s.turn[..9], [6, 6, 6, 6, 7, 7, 7, 7, 8]);
            assert_eq!(s.turn[240..244], [11, 11, 11, 11]);
        }
    }
}

#[test]
fn a_closed_pipe_is_no_panic() {
    let mut child = Command::new(env!("CARGO_BIN_EXE_gateway"))
        .args([
            "measure",
            "--turns",
            "1000",
            "--slot-us",
            "20",
            "--gap-us",
            "10",
        ])
        .stdout(Stdio::piped())
        .stderr(Stdio::piped())
        .spawn()
        .unwrap();
    drop(child.stdout.take());
    let status = child.wait().unwrap();
    let mut errors = String::new();
    child
        .stderr
        .take()
        .unwrap()
        .read_to_string(&mut errors)
        .unwrap();
    assert_eq!(status.code(), Some(1));
    assert_eq!(errors, "");
}
