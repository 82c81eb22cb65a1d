//! Corrections in a picture: `svg --corrections FILE`.

mod common;

use common::Place;

const NODES: &str = "4 4 4\n1 2 3\n2 2 0\n";

/// A directory with a text of two nodes, and a file of corrections.
fn place(name: &str, corrections: &str) -> Place {
    let place = Place::new(name);
    place.put("a", NODES).put("c", corrections);
    place
}

/// The lines of the arrows.
fn arrows(text: &str) -> Vec<&str> {
    let is_arrow = |line: &&str| line.starts_with("<path ") && line.contains("#c2185b");
    text.lines().filter(is_arrow).collect()
}

/// Edges and points: not the leaders to labels, which are thin.
fn drawn(text: &str) -> Vec<&str> {
    let is_drawn = |line: &&str| {
        line.starts_with("<circle ")
            || line.starts_with("<line ") && !line.contains("stroke-width=\"0.50\"")
    };
    text.lines().filter(is_drawn).collect()
}

#[test]
fn each_correction_that_is_not_0_has_an_arrow() {
    let place = place(
        "arrows",
        "point;dx;dy;dz\n\n8;-12;7;3\n9; 0;0;0 # none\n0;−5;0;0\n",
    );
    let without = place.run("svg a", b"").done();
    assert_eq!(arrows(&without).len(), 0);
    assert!(!without.contains("red"));
    for line in ["svg --corrections c a", "svg a --corrections=c"] {
        let text = place.run(line, b"").done();
        assert_eq!(arrows(&text).len(), 2);
        let caption = ">red: corrections, the longest of 2 is -12 7 3, of point 8</text>";
        assert!(text.contains(caption), "{text}");
        // The rest is drawn as without them; only labels may make room.
        assert_eq!(drawn(&text), drawn(&without));
        assert_eq!(
            text.matches("<text ").count(),
            without.matches("<text ").count() + 1
        );
    }
    let text = place.run("svg --corrections - a", b"8,1,1,1").done();
    assert_eq!(arrows(&text).len(), 1);
    let text = place.run("svg --corrections c --look 0 2 2 a", b"").done();
    assert_eq!(arrows(&text).len(), 2);
}

/// As far as the margin goes; those that differ by a sign are as long.
#[test]
fn arrows_of_all_sizes_stay_on_the_page() {
    for (a, b) in [("1000 -1000 1000", "-1000 1000 -1000"), ("0 0 1", "0 0 -1")] {
        let place = place("sizes", &format!("7 {a}\n0 {b}\n"));
        let text = place
            .run("svg --box 131072 1 500 --corrections c -", b"1 1 1\n")
            .done();
        assert!(!text.contains("NaN") && !text.contains("inf"));
        let length = |arrow: &str| {
            let (path, _) = arrow
                .split_once("d=\"M")
                .unwrap()
                .1
                .split_once("M")
                .unwrap();
            let numbers = path.split([' ', 'L']).map(|n| n.parse::<f64>().unwrap());
            let [x, y, z, w] = Vec::from_iter(numbers)[..] else {
                panic!("{path}");
            };
            (x - z).hypot(y - w)
        };
        let lengths = Vec::from_iter(arrows(&text).into_iter().map(length));
        assert_eq!(lengths.len(), 2);
        assert!(
            lengths.iter().all(|l| (l - 26.0).abs() < 0.2),
            "{lengths:?}"
        );
    }
}

#[test]
fn a_file_of_zeros_has_no_arrows() {
    let place = place("zeros", "8 0 0 0\n");
    let text = place.run("svg --corrections c a", b"").done();
    assert_eq!(text, place.run("svg a", b"").done());
}

#[test]
fn faults_have_their_line() {
    for (corrections, fault) in [
        ("", "no line of numbers: a correction is point dx dy dz"),
        (
            "point dx dy dz\n",
            "no line of numbers: a correction is point dx dy dz",
        ),
        (
            "8 1 2\n",
            "line 1: 3 columns, and a correction has four, point dx dy dz",
        ),
        (
            "\n8 1 2 3 4\n",
            "line 2: 5 columns, and a correction has four, point dx dy dz",
        ),
        (
            "8 1 2 0.5\n",
            "line 1: '0.5' is not a whole number that can stand here",
        ),
        (
            "-1 1 2 3\n",
            "line 1: '-1' is not a whole number that can stand here",
        ),
        (
            "8 1 2 3\npoint dx dy dz\n",
            "line 2: 'point' is not a whole number that can stand here",
        ),
        (
            "8 1 2 3\n0 0 0 0\n8 1 2 3\n",
            "line 3: point 8 stands in line 1 too",
        ),
        (
            "9 0 0 0\n10 0 0 1001\n",
            "line 2: point 10: refused 13 (no point): the points are 0 to 9",
        ),
        (
            "9 0 0 1001\n",
            "line 1: point 9: refused 12 (out of range): corrections are from -1,000 to 1,000",
        ),
        (
            "9 0 -1001 0\n",
            "line 1: point 9: refused 12 (out of range): corrections are from -1,000 to 1,000",
        ),
    ] {
        let place = place("faults", corrections);
        let ran = place.run("svg --corrections c a", b"");
        ran.refused(1, &format!("gantry: c: {fault}\n"));
    }
}

#[test]
fn words_that_are_wrong() {
    let place = place("words", "8 1 1 1\n");
    let usage = "usage: gantry svg FILE [OPTIONS]\n";
    for (line, message) in [
        ("svg a --corrections", "--corrections wants a file"),
        (
            "svg - --corrections -",
            "standard input can be only one of the two",
        ),
        (
            "svg a --listing - --corrections -",
            "standard input can be only one of the two",
        ),
    ] {
        let ran = place.run(line, b"");
        ran.refused(2, &format!("gantry: svg: {message}\n{usage}"));
    }
    let ran = place.run("vtk a --corrections c", b"");
    ran.refused(
        2,
        "gantry: vtk: unknown option --corrections\nusage: gantry vtk FILE [OPTIONS]\n",
    );
    place
        .run("svg a --corrections d", b"")
        .refused(1, "gantry: d: No such file or directory (os error 2)\n");
}
