//! The program as a whole: it agrees with itself, finds a program that answers nothing, and refuses to invent.
use std::io::Write;
use std::process::{Command, Output, Stdio};

const ORACLE: &str = env!("CARGO_BIN_EXE_oracle");

fn oracle(arguments: &[&str], input: &str) -> Output {
    let mut child = Command::new(ORACLE)
        .args(arguments)
        .stdin(Stdio::piped())
        .stdout(Stdio::piped())
        .stderr(Stdio::piped())
        .spawn()
        .unwrap();
    child.stdin.take().unwrap().write_all(input.as_bytes()).unwrap();
    child.wait_with_output().unwrap()
}

#[test]
fn agrees_with_itself() {
    let output = oracle(&["compare", "3", "1", "--replay", ORACLE, "answer"], "");
    assert!(output.status.success());
    assert!(String::from_utf8_lossy(&output.stdout).ends_with("all answers agree\n"));
}

#[test]
fn finds_the_smallest_difference() {
    let output = oracle(&["compare", "3", "1", "--replay", ORACLE], "");
    assert_eq!(output.status.code(), Some(1));
    let text = String::from_utf8_lossy(&output.stdout).to_string();
    assert!(text.contains("# a script that differs\ncreate\n\n# the original\nS\t0\n"), "{text}");
}

#[test]
fn says_which_line_has_no_answer() {
    let output = oracle(&["answer"], "# a comment\nsession 1 2 3 4 5\ncreate\nshow\ncheck 00\nshow\n");
    assert_eq!(output.status.code(), Some(1));
    assert_eq!(output.stdout, b"S\t0\nP\t0\n");
    assert!(output.stderr.starts_with(b"line 5: "));
}
