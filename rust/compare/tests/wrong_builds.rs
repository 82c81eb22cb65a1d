//! The comparison finds no difference where there is none, and each wrong build.

use compare::{run, Builder, Plain, Tuned};

fn agree(build: &dyn Builder) {
    for seed in 1..4 {
        if let Err(stop) = run(&Plain::RIGHT, build, seed, 1_500) {
            panic!("{stop}");
        }
    }
}

fn each_is_found(right: &dyn Builder) {
    for build in wrong::ALL {
        let stop = run(&Plain::wrong(build), right, 1, 20_000).err();
        assert!(
            stop.is_some_and(|stop| stop.is_difference),
            "{}",
            build.name
        );
    }
}

#[test]
fn plain_and_tuned_agree() {
    agree(&Tuned);
}

#[test]
fn each_is_found_by_plain() {
    each_is_found(&Plain::RIGHT);
}

#[test]
fn each_is_found_by_tuned() {
    each_is_found(&Tuned);
}

/// They leave positions that no cell holds: in folded pairs, or where cells are past the used length or the tables.
const UNHELD: [&str; 4] = [
    "far-side-left-out",
    "one-left-off",
    "used-not-raised",
    "used-raised-to-the-count",
];

/// So that a wrong build cannot end the process: each goes on with the tables that it left itself.
#[test]
fn each_answers_to_the_end() {
    for build in wrong::ALL {
        if let Err(stop) = run(&Plain::wrong(build), &Plain::wrong(build), 3, 2_000) {
            assert!(UNHELD.contains(&build.name), "{stop}");
            assert!(!stop.is_difference && stop.what.starts_with("answer: 7 to "));
        }
    }
}

#[test]
fn every_reachable_refusal_occurs() {
    let ran = run(&Tuned, &Tuned, 1, 30_000);
    let tally = ran.expect("no difference").tally;
    assert_eq!(tally.missing(), [""; 0]);
}

#[cfg(feature = "archive")]
mod archive {
    use compare::Archive;

    #[test]
    fn plain_and_archive_agree() {
        super::agree(&Archive);
    }

    #[test]
    fn each_is_found_by_archive() {
        super::each_is_found(&Archive);
    }
}
