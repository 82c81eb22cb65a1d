//! `gantry svg --drive`, over the archive.

mod common;

use common::Place;

#[test]
fn a_picture_of_a_drive() {
    let place = Place::new("drive");
    place.put("a", "4 4 4\n");
    let picture = place.run("svg a --drive 3 0 1 3 4 1", b"").done();
    for words in [
        "drive from 3 0 1 to 3 4 1: on it are 3 of 6 cells",
        "orange, thick: cells on it; purple: from A to B",
        "blue: box corners, brown: nodes, rings: the ends, green: cells",
    ] {
        assert!(picture.contains(&format!(">{words}</text>")), "{words}");
    }
    // The cells are the same the other way, and the ends are not.
    let back = place.run("svg --drive 3 4 1 3 0 1 a", b"").done();
    assert!(back.contains(">drive from 3 4 1 to 3 0 1: on it are 3 of 6 cells</text>"));
    let point = place.run("svg a --drive 0 0 0 0 0 0", b"").done();
    assert!(point.contains(">drive from 0 0 0 to 0 0 0: on it are 6 of 6 cells</text>"));
}

/// With an end outside nothing is written, and a file that was named stays.
#[test]
fn an_end_outside() {
    let place = Place::new("drive-outside");
    place.put("a", "4 4 4\n").put("a.svg", "old");
    let outside = |end: &str| format!("gantry: end {end}: refused 4 (outside): the box is 4 4 4\n");
    place
        .run("svg a --drive 3 0 1 3 5 1 -o a.svg", b"")
        .refused(1, &outside("3 5 1"));
    place
        .run("svg a --drive -1 0 1 3 4 1", b"")
        .refused(1, &outside("-1 0 1"));
    let both = outside("9 0 1") + &outside("0 0 5");
    place
        .run("svg a --drive 9 0 1 0 0 5", b"")
        .refused(1, &both);
    assert_eq!(place.bytes("a.svg"), b"old");
}

#[test]
fn wrong_words() {
    let place = Place::new("drive-words");
    place.put("a", "4 4 4\n");
    for (line, why) in [
        (
            "svg a --drive 1 2 3 4 5",
            "--drive wants two positions x y z x y z: 5 numbers, and 6 are wanted",
        ),
        (
            "svg a --drive 1 2 3 4 z 6",
            "--drive wants two positions x y z x y z: z is not a whole number",
        ),
        ("svg --drive=1 2 3 4 5 6 a", "--drive takes no ="),
        ("svg --drive 1 2 3 4 5 6", "no FILE"),
        ("vtk a --drive 1 2 3 4 5 6", "unknown option --drive"),
        (
            "svg a --drive 1 2 3 1 2 4 --look 1 2 3",
            "--look and --drive do not go together",
        ),
        (
            "svg a --drive 1 2 3 1 2 4 --listing a",
            "--drive is at the cells that the builder makes: leave --listing out",
        ),
    ] {
        let name = line.split(' ').next().unwrap();
        let said = format!("gantry: {name}: {why}\nusage: gantry {name} FILE [OPTIONS]\n");
        place.run(line, b"").refused(2, &said);
    }
}
