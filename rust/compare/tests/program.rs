//! What the program says by its status.

use std::process::Command;

fn run(words: &str) -> (Option<i32>, String) {
    let output = Command::new(env!("CARGO_BIN_EXE_compare"))
        .args(words.split_whitespace())
        .output()
        .expect("the program runs");
    let text = [output.stdout, output.stderr].concat();
    (output.status.code(), String::from_utf8(text).expect("text"))
}

#[test]
fn no_difference() {
    let (status, text) = run("--left tuned --right plain --calls 500");
    assert_eq!(status, Some(0), "{text}");
    assert!(text.starts_with("tuned and plain: "));
    assert_eq!(text.lines().count(), 18);
}

#[test]
fn a_difference() {
    let (status, text) = run("--left plain --right one-round");
    assert_eq!(status, Some(1));
    assert!(text.starts_with("difference: seed 1 step "));
    assert!(text.contains("\nleft plain, right one-round\n"));
}

#[test]
fn a_refusal_that_did_not_occur() {
    let (status, text) = run("--calls 1 --all-refusals");
    assert_eq!(status, Some(3));
    let last = text.lines().last().expect("a line");
    assert!(last.starts_with("did not occur: start "));
    assert!(last.ends_with(", sphere_test accepted, sphere_test 4, sphere_test 11"));
}

#[test]
fn words_that_are_wrong() {
    for (words, message) in [
        (
            "--left round",
            "round: not one of plain, tuned, archive, zero-",
        ),
        ("--right", "--right: no value\n"),
        ("--calls many", "many: no number\n"),
        ("--build tuned", "--build: unknown\n"),
    ] {
        let (status, text) = run(words);
        assert_eq!(status, Some(2));
        assert!(text.starts_with(message), "{text}");
        assert!(text.contains("\nusage: compare "));
    }
}
