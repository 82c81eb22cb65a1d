//! `gantry merge` as a user calls it.

mod common;

use common::Place;
use plain::nodefile::encode;
use plain::random::Random;
use plain::{Position, NODE_LIMIT};

const P: Position = [1, 2, 3];
const Q: Position = [2, 2, 0];
const R: Position = [3, 1, 1];

#[test]
fn two_node_files() {
    let place = Place::new("merged");
    place.put("a", encode([4; 3], &[P, [4; 3], Q, P]));
    place.put("b", [b"a note\0", &encode([4; 3], &[R, Q])[..]].concat());
    let said = "gantry: a: box 4 4 4, 4 nodes
gantry: b: box 4 4 4, 2 nodes
gantry: 6 nodes in two files: 3 left, 2 a second time, 1 on box corners
";
    let merged = encode([4; 3], &[P, Q, R]);
    let ran = place.run("merge a b", b"");
    assert_eq!((ran.status, &ran.said[..]), (Some(0), said));
    assert_eq!(ran.output, merged);
    assert_eq!(place.run("merge a b -o ab", b"").done_with(said), "");
    assert_eq!(place.bytes("ab"), merged);
    let said = said.replace("a: box", "standard input: box");
    let ran = place.run("merge - b", &place.bytes("a"));
    assert_eq!((ran.status, ran.said), (Some(0), said));
    // A file with itself, onto itself.
    let said = "gantry: ab: box 4 4 4, 3 nodes\n".repeat(2)
        + "gantry: 6 nodes in two files: 3 left, 3 a second time, 0 on box corners\n";
    place.run("merge ab ab -o ab", b"").done_with(&said);
    assert_eq!(place.bytes("ab"), merged);
    assert_eq!(place.names(), ["a", "ab", "b"]);
}

#[test]
fn text_is_taken_too() {
    let place = Place::new("merged-text");
    place.put("a.csv", "x;y;z\n1;2;3\n0;0;4\n1;2;3\n2;2;0\n");
    place.put("b.nodes", encode([4; 3], &[Q, R]));
    let ran = place.run("merge --box 4 4 4 a.csv b.nodes", b"");
    assert_eq!(
        ran.said,
        "gantry: a.csv: line 1 passed over as a heading: 'x;y;z'
gantry: a.csv: line 3 left out: 0 0 4 is a corner of the box, point 4 from the start
gantry: a.csv: line 4 left out: same as line 2, 1 2 3
gantry: a.csv: box 4 4 4, 2 nodes
gantry: b.nodes: box 4 4 4, 2 nodes
gantry: 4 nodes in two files: 3 left, 1 a second time, 0 on box corners; 2 lines left out before
"
    );
    assert_eq!(ran.status, Some(0));
    assert_eq!(ran.output, encode([4; 3], &[P, Q, R]));
    // A fault has its line, whichever file it is in.
    let said = "gantry: standard input: line 2: 5 0 0 is outside the box 4 4 4 of line 1
gantry: standard input: line 1 was taken as the box; if it is a node, give the box by --box X Y Z
";
    for words in ["- b.nodes", "b.nodes -"] {
        let ran = place.run(&format!("merge {words}"), b"4 4 4\n5 0 0\n");
        ran.refused(1, said);
    }
}

#[test]
fn wrong_words() {
    let place = Place::new("merged-words");
    place.put("a", "4 4 4\n");
    for (words, why) in [
        ("", "0 FILEs, and two are wanted"),
        ("a", "1 FILE, and two are wanted"),
        ("a a a", "3 FILEs, and two are wanted"),
        ("- -", "standard input can be only one of the two"),
        ("a a --leave-out", "unknown option --leave-out"),
    ] {
        let said = format!("gantry: merge: {why}\nusage: gantry merge FILE FILE [OPTIONS]\n");
        place.run(&format!("merge {words}"), b"").refused(2, &said);
    }
}

#[test]
fn refusals_are_explained() {
    let place = Place::new("merged-refused");
    let row: Vec<Position> = (1..=2_000).map(|k| [k, 2, 2]).collect();
    let long = |nodes: &[Position]| encode([3_000, 4, 4], nodes);
    place.put("a", encode([4; 3], &[P, Q]));
    place.put("cut", &encode([4; 3], &[P])[1..]);
    place.put("flat", encode([4, 0, 4], &[]));
    place.put("other", encode([4, 5, 4], &[]));
    place.put("far", encode([4; 3], &[R, [1, 2, 5], [9; 3]]));
    place.put("first", long(&row[..1_000]));
    place.put("second", long(&row[900..1_900]));
    place.put("old", "as it was");
    let cut = "cut: refused 9 (trailer): its count is 1 and its distance 12, and 11 bytes stand before the trailer: is it whole?";
    let flat = "flat: refused 2 (box): its box is 4 0 4; a side is 0 or above 131,072";
    let far = "far: place 1: node 1 2 5: refused 4 (outside): the box is 4 4 4";
    for (words, why) in [
        ("cut flat", cut),
        ("flat cut", flat),
        ("a cut", cut),
        ("other cut", cut),
        ("a flat", flat),
        ("a other", "a and other: refused 19 (unequal sides): box 4 4 4 in a, box 4 5 4 in other"),
        ("far other", "far and other: refused 19 (unequal sides): box 4 4 4 in far, box 4 5 4 in other"),
        ("a far", far),
        ("far a", far),
        ("first second", "first and second: refused 6 (points full): 1,900 nodes are left, and 1,016 is the most: use fewer, or divide the box"),
        ("a none", "none: No such file or directory (os error 2)"),
    ] {
        let said = format!("gantry: {why}\n");
        place.run(&format!("merge {words}"), b"").refused(1, &said);
        place.run(&format!("merge {words} -o old"), b"").refused(1, &said);
    }
    assert_eq!(place.bytes("old"), b"as it was");
}

/// What is told beside the file is about that file.
#[test]
fn the_counts_are_the_file_s() {
    let place = Place::new("merged-counts");
    for seed in 0..20 {
        let mut random = Random::new(seed);
        let side = random.pick(&[1, 2, 9]);
        let mut nodes = || -> Vec<Position> {
            let count = random.pick(&[0, 1, 30, NODE_LIMIT]);
            let node = |_| [0; 3].map(|_| random.below(side as u64 + 1) as u32);
            (0..count).map(node).collect()
        };
        let [first, second] = [nodes(), nodes()];
        place.put("a", encode([side; 3], &first));
        place.put("b", encode([side; 3], &second));
        let ran = place.run("merge a b", b"");
        assert_eq!(ran.status, Some(0), "{}", ran.said);
        let all = [first, second].concat();
        let left = (ran.output.len() - 20) / 12;
        let is_corner = |p: &&Position| p.iter().all(|&n| n == 0 || n == side);
        let corners = all.iter().filter(is_corner).count();
        let repeated = all.len() - left - corners;
        let nodes = if all.len() == 1 { "node" } else { "nodes" };
        let told = format!(
            "gantry: {} {nodes} in two files: {left} left, {repeated} a second time, {corners} on box corners",
            all.len()
        );
        assert_eq!(ran.said.lines().last(), Some(&told[..]));
    }
}
