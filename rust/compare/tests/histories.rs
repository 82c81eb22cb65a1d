//! The histories of examples/histories: each tells its wrong build apart. Six of them, and what they leave, are those of the
//! proved table in crates/pieces; a seventh is the proved head of crates/pieces_parked, and the two of wrong looks are the proved
//! look of crates/pieces_look.

use std::fmt::Write;

use compare::{named, Script};

/// The table holds histories of these wrong corrections.
const IN_THE_TABLE: [&str; 6] = [
    "zero-visible",
    "visibility-only",
    "lost-corners-only",
    "coplanar-keeps",
    "one-round",
    "one-at-a-time",
];

fn read(path: &str) -> String {
    let path = format!("{}/../../{path}", env!("CARGO_MANIFEST_DIR"));
    std::fs::read_to_string(&path).unwrap_or_else(|error| panic!("{path}: {error}"))
}

fn between<'a>(text: &'a str, from: &str, to: &str) -> &'a str {
    let (_, rest) = text.split_once(from).expect(from);
    rest.split_once(to).expect(to).0
}

fn numbers(text: &str) -> Vec<usize> {
    let words = text.split(|c: char| !c.is_ascii_alphanumeric() && c != '-');
    words.filter_map(|word| word.parse().ok()).collect()
}

fn words(numbers: &[usize]) -> String {
    let words: Vec<String> = numbers.iter().map(usize::to_string).collect();
    words.join(" ")
}

/// Names and records of the table's pieces.
fn pieces(table: &str) -> Vec<(String, &str)> {
    let pieces = table.split("unfoldable pub ").filter_map(|piece| {
        let (name, rest) = piece.split_once("_history : Piece")?;
        Some((name.replace('_', "-"), between(rest, "record {", "\n    }")))
    });
    pieces.collect()
}

fn calls(piece: &str) -> String {
    let room = numbers(between(piece, "room =", ";"))[0];
    let mut text = format!("box 4 4 4 points 11 cells {room}\n");
    let yes = |cells: usize| "1".repeat(cells);
    for call in numbers(between(piece, "before =", ";")).chunks(4) {
        let (cells, node) = (call[0], &call[1..]);
        let _ = writeln!(text, "answers {} {}", yes(cells), words(node));
    }
    let answers = between(piece, "answers =", ";");
    let kind = match numbers(answers)[..] {
        [cells, 1] => format!("answers {}", yes(cells)),
        _ => answers.trim().to_string(),
    };
    let node = numbers(between(piece, "node =", ";"));
    let _ = writeln!(text, "{kind} {}", words(&node));
    text
}

/// The last insertion's report, and the cells, without freed entries.
fn left(piece: &str) -> String {
    let counts = numbers(between(piece, "counts", ")"));
    let report = numbers(between(piece, "record {", "}"));
    let mut text = format!(
        "point {} before {} after {} made {} least {}\nbox 4 4 4 points {} cells {}\n",
        report[0], report[1], report[2], report[3], report[4], counts[0], counts[1]
    );
    let entries = between(piece, "entries =", "[]").replace("none", "-");
    for (number, entry) in entries.split('∷').enumerate() {
        if let Some(cell) = entry.trim().strip_prefix("cell ") {
            let _ = writeln!(text, "{number} {cell}");
        }
    }
    text
}

#[test]
fn they_are_the_proved_ones() {
    let table = read("crates/pieces/specs/Separating.antt");
    let pieces = pieces(&table);
    let names: Vec<&str> = pieces.iter().map(|(name, _)| &name[..]).collect();
    assert_eq!(names, IN_THE_TABLE);
    for (name, piece) in pieces {
        assert_eq!(
            read(&format!("examples/histories/{name}.calls")),
            calls(piece)
        );
        let expected = read(&format!("examples/histories/{name}.txt"));
        let lines: Vec<&str> = expected.split_inclusive('\n').collect();
        let before = numbers(between(piece, "before =", ";")).len() / 4;
        assert_eq!(lines[before..].concat(), left(piece), "{name}");
    }
}

/// The head of lowest-numbered: its calls, and the cells that it is located in.
#[test]
fn the_parked_head_is_the_proved_one() {
    let text = read("crates/pieces_parked/specs/Head.antt");
    let line = |from: &str| numbers(between(&text, from, "\n"));
    let (before, node, head) = (line("\nbefore ="), line("\nnode ="), line("\nhead ="));
    let [x, y, z, cells, _work, _call, nodes @ ..] = &before[..] else {
        panic!("{before:?}");
    };
    let (nodes, node, head) = (words(nodes), words(&node), words(&head));
    let calls = format!(
        "box {x} {y} {z} points 11 cells {cells}\nsphere {nodes}\nlocate {head}\nsphere {node}\nlocate {head}\n"
    );
    assert_eq!(read("examples/histories/lowest-numbered.calls"), calls);
    let cell = |from: &str| line(from).pop().expect("a cell");
    let (before, after) = (cell("pub located :"), cell("pub located_again :"));
    let corners = format!("pub corners_{before} :");
    let expected = read("examples/histories/lowest-numbered.txt");
    for (cell, corners) in [(before, &corners[..]), (after, "pub same_corners :")] {
        let corners = &line(corners)[1..];
        let located = format!("\ncell {cell} corners {}\n", words(corners));
        assert!(expected.contains(&located), "{located}");
    }
}

#[test]
fn each_is_of_a_wrong_build() {
    let folder = format!("{}/../../examples/histories", env!("CARGO_MANIFEST_DIR"));
    let files = std::fs::read_dir(&folder).expect("the histories");
    let mut files: Vec<String> = files
        .map(|file| {
            file.expect("a file")
                .file_name()
                .into_string()
                .expect("a name")
        })
        .collect();
    files.sort();
    let names = wrong::ALL.map(|build| build.name);
    let mut expected: Vec<String> = names
        .iter()
        .flat_map(|name| [format!("{name}.calls"), format!("{name}.txt")])
        .collect();
    expected.sort();
    assert_eq!(files, expected);
}

#[test]
fn each_tells_its_wrong_build_apart() {
    for build in wrong::ALL {
        let name = build.name;
        let script = Script::parse(&read(&format!("examples/histories/{name}.calls"))).unwrap();
        let expected = read(&format!("examples/histories/{name}.txt"));
        for right in ["plain", "tuned"] {
            assert_eq!(script.play(named(right).unwrap().as_ref()), expected);
        }
        assert_ne!(script.play(named(name).unwrap().as_ref()), expected);
    }
}

/// Of both wrong looks: the base, the cavity before its correction and the corrected one all differ.
#[test]
fn the_corrected_look_is_the_proved_one() {
    let text = read("crates/pieces_look/specs/Look.antt");
    let line = |from: &str| numbers(between(&text, from, "\n"));
    let (started, before) = (line("\nstarted ="), line("\nbefore ="));
    let ([x, y, z, room, _], [_, cells, no, node @ ..]) = (&started[..], &before[..]) else {
        panic!("{started:?} {before:?}");
    };
    let (no, node) = (no.to_string().repeat(*cells), words(node));
    let looked = words(&line("\nnode ="));
    let calls =
        format!("box {x} {y} {z} points 11 cells {room}\nanswers {no} {node}\nlook {looked}\n");
    let report = line("\nreport =");
    let [point, before, after, made, least] = report[..] else {
        panic!("{report:?}");
    };
    let digits = words(&line("pub marks :")).replace(' ', "");
    let (marks, beyond) = digits.split_at(digits.len() - 3);
    let seen = format!(
        "look point {point} before {before} after {after} made {made} least {least}\nmarks {marks} beyond {beyond}\n"
    );
    for name in ["marks-before-correction", "marks-of-the-base"] {
        assert_eq!(read(&format!("examples/histories/{name}.calls")), calls);
        let expected = read(&format!("examples/histories/{name}.txt"));
        assert!(expected.contains(&seen), "{seen}");
    }
}

#[test]
fn a_bad_line_is_named() {
    let after = |calls: &str| {
        let text = format!("box 4 4 4 points 11 cells 18\n{calls}");
        Script::parse(&text).unwrap_err()
    };
    assert!(Script::parse("")
        .unwrap_err()
        .starts_with("line 1: not 'box"));
    assert_eq!(after("sphere 1 2"), "line 2: not three numbers");
    assert_eq!(after("sphere 1 2 3\nsphere 1 2 x"), "line 3: x: no number");
    assert_eq!(
        after("answers 12 1 2 3"),
        "line 2: 12: not digits from 0 to 1"
    );
    assert_eq!(after("look 1 2"), "line 2: not three numbers");
    assert_eq!(
        after("marked 1x 1 2 3"),
        "line 2: 1x: not digits from 0 to 9"
    );
    assert_eq!(after("marked 1 2 3"), "line 2: not three numbers");
    assert!(after("insert 1 2 3").starts_with("line 2: not a line of 'sphere'"));
    assert_eq!(after("locate 1 2"), "line 2: not three numbers");
    assert_eq!(after("merge 1 2 3 and 1 2"), "line 2: not three numbers");
    assert_eq!(
        after("merge 1 2 3"),
        "line 2: not two files with 'and' between them"
    );
    assert_eq!(
        after("cell 0 1 2 3"),
        "line 2: not a number, four corners and four neighbours"
    );
    assert_eq!(
        after("check\ncell 18 0 1 3 7 - - - -"),
        "line 3: no room for a cell 18"
    );
    let drive = "line 2: not two positions and a length";
    assert_eq!(after("drive 0 0 0 4 4 4"), drive);
    assert_eq!(after("drive 0 0 0 4 4 x 6"), "line 2: x: no number");
    assert_eq!(after("drive 0 0 0 4 4 4 -1"), "line 2: -1: no number");
    assert_eq!(after("correction 1 2"), "line 2: not three numbers");
    assert_eq!(after("set 8 1 -2"), "line 2: not three numbers");
    assert_eq!(after("set -1 1 2 3"), "line 2: -1: no number");
    assert_eq!(after("start 4 4"), "line 2: not three numbers");
    assert_eq!(after("stands 33 0"), "line 2: no entry 33");
    let room = Script::parse("box 4 4 4 points 11 cells 18 entries 5").unwrap_err();
    assert_eq!(room, "line 1: not 'corrections N' after the cells");
    let record = "line 2: not 'record cells C chain N used U'";
    assert_eq!(after("record cells 6 chain - used"), record);
    assert_eq!(
        after("record cells - chain - used 6"),
        "line 2: -: no number"
    );
}
