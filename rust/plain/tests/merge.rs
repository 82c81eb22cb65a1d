//! Two surveys in one file: what is left, each refusal, and their order.

use plain::nodefile::encode;
use plain::{Position, Written};

/// What a call answers and leaves in an output of so many bytes, each of them 7 before.
fn merged(first: &[u8], second: &[u8], room: usize) -> (Written, Vec<u8>) {
    let mut out = vec![7; room];
    let answer = plain::merge(first, second, &mut out);
    (answer, out)
}

/// Accepted in just enough room and in more, with these nodes in the box 4, 4, 4.
#[track_caller]
fn leaves(first: &[u8], second: &[u8], nodes: &[Position]) {
    let file = encode([4; 3], nodes);
    let accepted = Written {
        refusal: 0,
        bytes: file.len() as u32,
    };
    for spare in [0, 1, 100] {
        let out = [&file[..], &vec![7; spare]].concat();
        assert_eq!(merged(first, second, out.len()), (accepted, out));
    }
    refused(first, second, file.len() - 1, 10);
}

#[track_caller]
fn refused(first: &[u8], second: &[u8], room: usize, refusal: u8) {
    let left = (Written { refusal, bytes: 0 }, vec![7; room]);
    assert_eq!(merged(first, second, room), left);
}

fn file(nodes: &[Position]) -> Vec<u8> {
    encode([4; 3], nodes)
}

fn noted(file: &[u8]) -> Vec<u8> {
    [b"measured on Tuesday", file].concat()
}

const P: Position = [1, 2, 3];
const Q: Position = [2, 2, 0];
const R: Position = [3, 1, 1];

#[test]
fn in_order_and_a_single_time() {
    leaves(&file(&[P, Q]), &file(&[R]), &[P, Q, R]);
    leaves(&file(&[R]), &file(&[P, Q]), &[R, P, Q]);
    leaves(&file(&[P, Q]), &file(&[Q, R, P]), &[P, Q, R]);
    leaves(&file(&[P, Q, P, P]), &file(&[]), &[P, Q]);
    leaves(&file(&[]), &file(&[Q, P, Q]), &[Q, P]);
    leaves(&file(&[R, Q]), &file(&[P, Q, P]), &[R, Q, P]);
    leaves(&file(&[]), &file(&[]), &[]);
}

#[test]
fn a_file_with_itself() {
    let both = file(&[P, Q, P, R]);
    leaves(&both, &both, &[P, Q, R]);
}

#[test]
fn box_corners_are_left_out() {
    let corners: Vec<Position> = (0..8)
        .map(|k| plain::loaded::box_corner([4; 3], k))
        .collect();
    leaves(&file(&corners), &file(&corners), &[]);
    leaves(&file(&[P, corners[5]]), &file(&[corners[0], Q]), &[P, Q]);
    // On an edge, on a wall: no corner.
    let near = [[0, 0, 3], [4, 4, 1], [0, 2, 4]];
    leaves(&file(&near), &file(&corners), &near);
}

#[test]
fn notes_are_passed_over() {
    let [first, second] = [file(&[P]), file(&[Q])];
    leaves(&noted(&first), &noted(&second), &[P, Q]);
    // A file as the note of another.
    leaves(&first, &[first.clone(), second].concat(), &[P, Q]);
}

#[test]
fn each_file_s_9_and_2() {
    let good = file(&[P]);
    let cut = good[1..].to_vec();
    let flat = encode([4, 0, 4], &[P]);
    let long = encode([4, 4, 131_073], &[P]);
    for (file, refusal) in [(&cut, 9), (&flat, 2), (&long, 2), (&vec![], 9)] {
        refused(file, &good, 99, refusal);
        refused(&good, file, 99, refusal);
    }
    let both = flat[1..].to_vec();
    refused(&both, &good, 99, 9);
    // Both tests of the first file come before those of the second.
    refused(&flat, &cut, 99, 2);
    refused(&cut, &flat, 99, 9);
}

#[test]
fn unequal_sides() {
    let first = file(&[P]);
    for sides in [[5, 4, 4], [4, 5, 4], [4, 4, 5]] {
        refused(&first, &encode(sides, &[P]), 99, 19);
        refused(&encode(sides, &[P]), &first, 99, 19);
    }
    // After the second file's own tests, before all others.
    refused(&first, &encode([5, 4, 4], &[P])[1..], 99, 9);
    refused(&first, &encode([0, 4, 4], &[P]), 99, 2);
    refused(&first, &encode([5, 4, 4], &[[9; 3]]), 0, 19);
}

#[test]
fn a_node_outside() {
    for node in [[5, 0, 0], [0, 5, 0], [0, 0, u32::MAX]] {
        refused(&file(&[P, node]), &file(&[Q]), 99, 4);
        refused(&file(&[P]), &file(&[Q, node]), 99, 4);
        // Also where it stands a second time, and before 10.
        refused(&file(&[node, node]), &file(&[node]), 0, 4);
    }
}

/// So many different nodes, the first of them [1, 1, 1].
fn row(count: u32) -> Vec<Position> {
    (1..=count).map(|k| [k, 1, 1]).collect()
}

#[test]
fn at_most_1016_are_left() {
    let sides = [5_000, 4, 4];
    let file = |nodes: &[Position]| encode(sides, nodes);
    let all = row(2_000);
    let full = file(&all[..1_016]);
    let bytes = full.len();
    assert_eq!(bytes, 12_212);
    for second in [&all[..1_016], &all[500..1_016], &[sides], &[]] {
        let (answer, out) = merged(&full, &file(second), bytes);
        assert_eq!((answer.refusal, out), (0, full.clone()));
    }
    for (a, b) in [(508, 1_016), (1_015, 1_016)] {
        let answer = merged(&file(&all[..a]), &file(&all[a..b]), bytes);
        assert_eq!(answer.1, full);
    }
    for (a, b) in [(1_016, 1_017), (508, 1_017), (1_000, 2_000)] {
        refused(&file(&all[..a]), &file(&all[a..b]), bytes, 6);
        refused(&file(&all[..a]), &file(&all[a..b]), 0, 6);
    }
}

#[test]
fn outside_comes_before_too_many() {
    let sides = [1_500, 4, 4];
    let file = |nodes: &[Position]| encode(sides, nodes);
    let all = row(2_032);
    refused(&file(&all[..1_016]), &file(&all[1_016..]), 99_999, 4);
    let mut far = all[..1_016].to_vec();
    far[1_015] = [1_501, 0, 0];
    refused(&file(&far), &file(&all[1_016..1_100]), 99_999, 4);
}

#[test]
fn the_merged_file_reads_back_and_goes_in() {
    let (answer, out) = merged(&file(&[P, Q, [4; 3]]), &file(&[R, P]), 99);
    let merged = &out[..answer.bytes as usize];
    let mut numbers = [0; 9];
    let read = plain::read_nodes(merged, &mut numbers);
    assert_eq!((read.refusal, read.count), (0, 3));
    assert_eq!(numbers, [1, 2, 3, 2, 2, 0, 3, 1, 1]);
    let list = plain::listing(merged);
    assert!(list.starts_with("box 4 4 4 points 11 ") && !list.contains("stopped"));
}
