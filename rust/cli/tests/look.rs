//! `gantry look`, and `--look` of the pictures, as a user calls them; and what a look says beside what an insertion does.

mod common;

use std::collections::BTreeSet;

use common::Place;
use gantry::{Cell, Mesh, Position};
use gantry_cli::look::Replacing;
use plain::nodefile::encode;
use plain::random::Random;

#[test]
fn the_report_and_the_cells() {
    let place = Place::new("look");
    place.put("a", "4 4 4\n1 2 3\n2 2 0\n");
    let one = "node 0 2 2 would be point 10 and replace 3 of 16 cells by 6: 19 cells then
  cavity: 3 cells before correction, 3 after; least T 96
  cell 1: corners 0 9 2 8
  cell 11: corners 0 2 6 8
  cell 13: corners 0 6 4 8
";
    assert_eq!(place.run("look a 0 2 2", b"").done(), one);
    let list = place.run("list a", b"").done();
    for line in ["1 0 9 2 8 ", "11 0 2 6 8 ", "13 0 6 4 8 "] {
        assert!(list.contains(&format!("\n{line}")));
    }
    // Each is looked at by itself; what is refused is told, and the others are shown.
    let other = place.run("look a 3 1 1", b"").done();
    let several = place.run("look a 3 1 1 5 0 0 0 2 2", b"");
    assert_eq!(
        (several.status, &several.said[..]),
        (
            Some(1),
            "gantry: node 5 0 0: refused 4 (outside): the box is 4 4 4\n"
        )
    );
    assert_eq!(several.output, format!("{other}{one}").as_bytes());
    // A node file, standard input, into a file.
    place.put("a.nodes", encode([4; 3], &[[1, 2, 3], [2, 2, 0]]));
    assert_eq!(place.run("look a.nodes 0 2 2", b"").done(), one);
    let text = place.bytes("a");
    place.run("look - 0 2 2 -o said", &text).done();
    assert_eq!(place.bytes("said"), one.as_bytes());
}

#[test]
fn the_pictures_say_what_they_are_of() {
    let place = Place::new("look-pictures");
    place.put("a", "4 4 4\n1 2 3\n2 2 0\n");
    let said = "node 0 2 2 would be point 10 and replace 3 of 16 cells by 6";
    let vtk = place.run("vtk --look 0 2 2 a", b"").done();
    let title = format!("box 4 4 4, 10 points, 16 cells, {said}");
    assert_eq!(vtk.lines().nth(1), Some(&title[..]));
    let svg = place.run("svg --look 0 2 2 a", b"").done();
    for line in [
        "box 4 4 4, 10 points, 16 cells",
        said,
        "orange, thick: cells that it would replace; dashed: edges that would go",
        "blue: box corners, brown: nodes, ring: the new one, green: cells",
    ] {
        assert!(svg.contains(&format!(">{line}</text>")), "{line}");
    }
}

/// Nothing goes in, and no file is touched.
#[test]
fn nothing_is_changed() {
    let place = Place::new("look-changes");
    place.put("a.nodes", encode([4; 3], &[[1, 2, 3]]));
    let before = (
        place.bytes("a.nodes"),
        place.run("list a.nodes", b"").done(),
    );
    for line in [
        "look a.nodes 2 2 2",
        "svg a.nodes --look 2 2 2",
        "vtk a.nodes --look 2 2 2",
    ] {
        let shown = place.run(line, b"").done();
        assert_eq!(place.run(line, b"").done(), shown);
    }
    let after = (
        place.bytes("a.nodes"),
        place.run("list a.nodes", b"").done(),
    );
    assert_eq!(after, before);
    assert_eq!(place.names(), ["a.nodes"]);
}

#[test]
fn refused_looks() {
    let place = Place::new("look-refused");
    let filled: Vec<Position> = (1..=1_016).map(|k| [k, 0, 0]).collect();
    place
        .put("a", "4 4 4\n1 2 3\n2 2 0\n")
        .put("old", "as it was");
    place.put("filled", encode([2_000, 4, 4], &filled));
    let outside = "refused 4 (outside): the box is 4 4 4";
    for (file, node, why) in [
        ("a", "4 0 4", "refused 5 (taken): it is box corner 5, which is not to be listed"),
        ("a", "2 2 0", "refused 5 (taken): it is at place 1 already, point 9"),
        ("a", "4 4 5", outside),
        ("a", "131073 0 0", outside),
        ("a", "0 -1 0", outside),
        ("a", "0 0 4294967296", outside),
        ("filled", "1 1 1", "refused 6 (points full): there are 1,024 points, and that is the most: use fewer nodes, or divide the box"),
    ] {
        let said = format!("gantry: node {node}: {why}\n");
        for line in [
            format!("look {file} {node}"),
            format!("svg {file} --look {node}"),
            format!("vtk --look {node} {file}"),
        ] {
            place.run(&line, b"").refused(1, &said);
            place.run(&format!("{line} -o old"), b"").refused(1, &said);
        }
    }
    assert_eq!(place.bytes("old"), b"as it was");
    // What is said of FILE is said too.
    let said = "gantry: standard input: line 1 passed over as a heading: 'x y z'\n";
    for line in ["look --box 4 4 4 - 9 9 9", "svg --box 4 4 4 --look 9 9 9 -"] {
        let ran = place.run(line, b"x y z\n1 2 3\n");
        ran.refused(1, &format!("{said}gantry: node 9 9 9: {outside}\n"));
    }
}

#[test]
fn cells_full() {
    let place = Place::new("look-full");
    let mut random = Random::new(8);
    let mut mesh = Mesh::start(1_000, 1_000, 1_000).unwrap();
    let node = loop {
        let node = [0; 3].map(|_| random.below(1_001) as u32);
        if mesh.insert(node) == Err(gantry::Refusal::CellsFull) {
            break node;
        }
    };
    place.put("a.nodes", mesh.write_nodes().unwrap());
    let ([x, y, z], cells, nodes) = (node, mesh.cells().len(), mesh.points().len() - 8);
    place.run(&format!("look a.nodes {x} {y} {z}"), b"").refused(1, &format!(
        "gantry: node {x} {y} {z}: refused 8 (cells full): {cells} cells and the new ones exceed 4,096; {nodes} nodes went in: use fewer, or divide the box\n"
    ));
}

#[test]
fn wrong_words() {
    let place = Place::new("look-words");
    place.put("a", "4 4 4\n");
    for (line, why) in [
        ("look", "no FILE"),
        ("look a", "0 words after FILE, and a node has three, x y z"),
        (
            "look a 1 2",
            "2 words after FILE, and a node has three, x y z",
        ),
        (
            "look a 1 2 3 4",
            "4 words after FILE, and a node has three, x y z",
        ),
        ("look a 1 2 z", "z is not a whole number"),
        ("look a 1 2 1.5", "1.5 is not a whole number"),
        ("look a --listing a 1 2 3", "unknown option --listing"),
        ("look a --look 1 2 3", "unknown option --look"),
        ("check --look 1 2 3 a", "unknown option --look"),
        ("svg a --look", "--look wants a node x y z: 0 numbers, and 3 are wanted"),
        ("svg a --look 1", "--look wants a node x y z: 1 number, and 3 are wanted"),
        ("vtk --look 1 2 a", "--look wants a node x y z: a is not a whole number"),
        ("vtk --look 1 2 99999999999999999999 a", "--look wants a node x y z: 99999999999999999999 is no coordinate: these are from 0 to 131,072"),
        ("vtk --look 1 -99999999999999999999 2 a", "--look wants a node x y z: -99999999999999999999 is no coordinate: these are from 0 to 131,072"),
        ("svg --look=1 2 3 a", "--look takes no ="),
        ("svg --look 1 2 3", "no FILE"),
        ("svg a --look 1 2 3 --listing a", "--look is at the cells that the builder makes: leave --listing out"),
        ("vtk --listing a --look 1 2 3 a", "--look is at the cells that the builder makes: leave --listing out"),
    ] {
        let name = line.split(' ').next().unwrap();
        let words = if name == "look" { "FILE x y z" } else { "FILE" };
        let said = format!("gantry: {name}: {why}\nusage: gantry {name} {words} [OPTIONS]\n");
        place.run(line, b"").refused(2, &said);
    }
}

fn sorted_corners(mesh: &Mesh) -> Vec<[usize; 4]> {
    let sorted = |cell: Cell| {
        let mut corners = cell.corners;
        corners.sort_unstable();
        corners
    };
    mesh.cells().map(sorted).collect()
}

/// The cells, edges and counts of a look beside the tables before and after a plain insertion.
#[test]
fn a_look_is_about_its_insertion() {
    let mut random = Random::new(6);
    let (mut accepted, mut lost) = (0, 0);
    for _ in 0..40 {
        let side = random.pick(&[3, 9, 1_000]);
        let mut mesh = Mesh::start(side, side, side).unwrap();
        for _ in 0..random.below(30) {
            let node = [0; 3].map(|_| random.below(u64::from(side) + 1) as u32);
            let before = mesh.clone();
            let looked = Replacing::of(&mut mesh, node);
            assert_eq!(mesh, before);
            let inserted = mesh.insert(node);
            let Ok(replacing) = looked else {
                assert_eq!(looked.err(), inserted.err());
                continue;
            };
            assert_eq!(inserted, Ok(replacing.look.report()));
            let counts = [&before, &mesh].map(|mesh| mesh.cells().len());
            assert_eq!([replacing.now, replacing.then], counts);
            let [old, new] = [&before, &mesh].map(sorted_corners);
            let gone = before
                .cells()
                .zip(&old)
                .filter(|(_, corners)| !new.contains(corners));
            let gone: Vec<Cell> = gone.map(|(cell, _)| cell).collect();
            assert_eq!(replacing.cells, gone);
            let pairs = [[0, 1], [0, 2], [0, 3], [1, 2], [1, 3], [2, 3]];
            let edges = |cells: Vec<[usize; 4]>| -> BTreeSet<[usize; 2]> {
                cells
                    .iter()
                    .flat_map(|c| pairs.map(|pair| pair.map(|k| c[k])))
                    .collect()
            };
            let gone = &edges(old) - &edges(new);
            assert_eq!(replacing.lost, gone);
            assert!(replacing.edges.is_superset(&gone));
            accepted += 1;
            lost += gone.len();
        }
    }
    assert!(accepted > 200 && lost > 200, "{accepted} {lost}");
}
