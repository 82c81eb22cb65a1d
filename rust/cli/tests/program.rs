//! The command as a user calls it: what it prints, what it says, its status, and the files that it leaves.

mod common;

use std::fs;
use std::path::Path;
use std::process::{Command, Stdio};

use common::{Place, GANTRY};
use plain::nodefile::encode;
use plain::random::Random;

const COMMANDS: [&str; 11] = [
    "nodes", "text", "merge", "list", "check", "locate", "look", "svg", "vtk", "volume", "sphere",
];

#[test]
fn help_and_version() {
    let place = Place::new("help");
    let help = place.run("--help", b"").done();
    assert!(help.starts_with("Cells over the nodes of a gantry box"));
    for words in ["-h", "help"] {
        assert_eq!(place.run(words, b"").done(), help);
    }
    for name in COMMANDS {
        assert!(help.contains(&format!("\n  {name} ")));
        let help = place.run(&format!("{name} --help"), b"").done();
        assert!(help.starts_with(&format!("usage: gantry {name} ")));
        assert_eq!(place.run(&format!("help {name}"), b"").done(), help);
        assert_eq!(place.run(&format!("{name} a b -h"), b"").done(), help);
    }
    let version = format!("gantry {}\n", env!("CARGO_PKG_VERSION"));
    for words in ["--version", "-V"] {
        assert_eq!(place.run(words, b"").done(), version);
    }
}

#[test]
fn wrong_words() {
    let place = Place::new("words");
    place.put("a", "4 4 4\n");
    let cases = [
        ("", "gantry: no command; see gantry --help"),
        ("cells", "gantry: unknown command cells; see gantry --help"),
        ("help cells", "gantry: unknown command cells; see gantry --help"),
        ("--version now", "gantry: too many words after --version"),
        ("list", "gantry: list: no FILE\nusage: gantry list FILE [OPTIONS]"),
        ("list a b", "gantry: list: b: only one FILE is taken\nusage: gantry list FILE [OPTIONS]"),
        ("list --listing a a", "gantry: list: unknown option --listing\nusage: gantry list FILE [OPTIONS]"),
        ("text a -o", "gantry: text: -o wants a file\nusage: gantry text FILE [OPTIONS]"),
        ("text a --leave-out=1", "gantry: text: --leave-out takes no =\nusage: gantry text FILE [OPTIONS]"),
        ("svg --listing - -", "gantry: svg: standard input can be only one of the two\nusage: gantry svg FILE [OPTIONS]"),
        ("locate a 1 2", "gantry: locate: 2 words after FILE, and a position has three, x y z\nusage: gantry locate FILE x y z [OPTIONS]"),
        ("locate a 1 2 z", "gantry: locate: z is not a whole number\nusage: gantry locate FILE x y z [OPTIONS]"),
        ("locate a 1 2 9223372036854775808", "gantry: locate: 9223372036854775808 is no coordinate: these are from 0 to 131,072\nusage: gantry locate FILE x y z [OPTIONS]"),
    ];
    for (line, said) in cases {
        place.run(line, b"").refused(2, &format!("{said}\n"));
    }
    for sides in ["4 4", "4 4 0", "4 4 131073", "4 4 a"] {
        let ran = place.run(&format!("text - --box {sides}"), b"");
        let said = "gantry: text: --box wants three sides X Y Z, each from 1 to 131,072\n";
        ran.refused(2, &format!("{said}usage: gantry text FILE [OPTIONS]\n"));
    }
    let twelve = place.run("volume 1 2 3", b"");
    assert!(twelve
        .said
        .starts_with("gantry: volume: 3 numbers, and 12 are wanted\n"));
    assert_eq!(twelve.status, Some(2));
}

#[test]
fn from_an_export_to_pictures() {
    let place = Place::new("export");
    place.put("s.csv", "\u{feff}x;y;z\r\n1;2;3\r\n2;2;0\r\n");
    let heading = "gantry: s.csv: line 1 passed over as a heading: 'x;y;z'\n";
    let written = place.run("nodes --box 4 4 4 s.csv -o s.nodes", b"");
    let said = format!("{heading}gantry: s.csv: box 4 4 4, 2 nodes\n");
    assert_eq!(written.done_with(&said), "");
    assert_eq!(
        place.bytes("s.nodes"),
        encode([4; 3], &[[1, 2, 3], [2, 2, 0]])
    );
    assert_eq!(
        place.run("text s.nodes", b"").done(),
        "4 4 4\n1 2 3\n2 2 0\n"
    );
    let list = place.run("list s.nodes", b"").done();
    assert_eq!(list, plain::listing(&place.bytes("s.nodes")));
    for (line, begins) in [("svg", "<svg "), ("vtk", "# vtk DataFile Version 3.0\n")] {
        let picture = place.run(&format!("{line} s.nodes"), b"").done();
        assert!(picture.starts_with(begins));
        // From text, from a listing, into a file: the same.
        let of_text = place.run(&format!("{line} --box 4 4 4 s.csv"), b"");
        assert!(of_text.done_with(heading) == picture);
        let of_list = place.run(&format!("{line} --listing - s.nodes"), list.as_bytes());
        assert!(of_list.done() == picture);
        place.run(&format!("{line} s.nodes --output=p"), b"").done();
        assert_eq!(place.bytes("p"), picture.as_bytes());
    }
    let check = "s.nodes: box 4 4 4, 10 points, 16 cells
every node went in: yes, 2 nodes
every point is a corner of some cell: yes, 10 points
every cell has a positive volume: yes, six-fold from 8 to 40
every face lies on a wall or is shared with the cell across it: yes, 14 on walls, 25 shared
the volumes add up to the box's: yes, six-fold 6 × 4 × 4 × 4 = 384
mesh check: yes
";
    assert_eq!(place.run("check s.nodes", b"").done(), check);
    assert_eq!(place.names(), ["p", "s.csv", "s.nodes"]);
}

#[test]
fn files_that_are_refused() {
    let place = Place::new("refused");
    let whole = encode([4; 3], &[[1, 2, 3]]);
    place.put("short", &whole[13..]);
    place.put("cut", &whole[1..]);
    place.put(
        "distance",
        [&encode([4; 3], &[])[..16], &[12, 0, 0, 0]].concat(),
    );
    place.put("box", encode([4, 0, 4], &[]));
    place.put("empty", "");
    place.put("list", "box 4 4 4 points 8 cells 6\n");
    let wide = |text: &str| Vec::from_iter(text.encode_utf16().flat_map(u16::to_le_bytes));
    place.put("wide", wide("\u{feff}x;ÿ;ж\n4;4;4"));
    place.put("wider", wide("x;y;z\n4;4;4"));
    place.put("zipped", b"PK\x03\x04\0\0and more than twenty bytes");
    // These begin as UTF-16 does.
    place.put("marked", encode([0, 4, 4], &[[0xfeff, 0, 0]]));
    let mut counted = encode([4; 3], &[[0xfeff, 0, 0]]);
    counted[24] = 2;
    place.put("counted", counted);
    let cases = [
        ("short", "refused 9 (trailer): it has 19 bytes, and a trailer has 20"),
        ("cut", "refused 9 (trailer): its count is 1 and its distance 12, and 11 bytes stand before the trailer: is it whole?"),
        ("distance", "refused 9 (trailer): its count is 0 and its distance 12, and 12 × 0 is 0"),
        ("box", "refused 2 (box): its box is 4 0 4; a side is 0 or above 131,072"),
        ("empty", "refused 9 (trailer): it is empty"),
        ("none", "No such file or directory (os error 2)"),
        (".", "Is a directory (os error 21)"),
        ("list", "a listing, which has no coordinates; name its node file (and by --listing, where a command has it, the listing)"),
        ("wide", "refused 9 (trailer): it is text in UTF-16: save it as CSV or text in UTF-8"),
        ("wider", "refused 9 (trailer): it is text in UTF-16: save it as CSV or text in UTF-8"),
        ("zipped", "refused 9 (trailer): it is a spreadsheet file or an archive: export the nodes as CSV"),
        ("marked", "refused 2 (box): its box is 0 4 4; a side is 0 or above 131,072"),
        ("counted", "refused 9 (trailer): its count is 2 and its distance 12, and 12 × 2 is 24"),
    ];
    for (name, why) in cases {
        let said = format!("gantry: {name}: {why}\n");
        place.run(&format!("nodes {name}"), b"").refused(1, &said);
        place
            .run(&format!("svg {name} -o p"), b"")
            .refused(1, &said);
        // A listing says of a refused node file that it is refused, but not in place of another one.
        let list = place.run(&format!("list {name}"), b"");
        let listed = why
            .strip_prefix("refused ")
            .map(|why| format!("refused {}\n", &why[..1]));
        assert_eq!((list.status, &list.said), (Some(1), &said));
        assert_eq!(list.output, listed.unwrap_or_default().as_bytes());
        place
            .run(&format!("list {name} -o p"), b"")
            .refused(1, &said);
    }
    assert!(!place.names().contains(&"p".to_string()));
    let text = place.run("nodes -", b"4 4 4\n1 2.5 3\n9 9 9\n");
    text.refused(
        1,
        "gantry: standard input: line 2: '2.5' is not a whole number: scale to whole steps
gantry: standard input: line 3: 9 9 9 is outside the box 4 4 4 of line 1
gantry: standard input: numbers are written without decimals and without separators of thousands
gantry: standard input: line 1 was taken as the box; if it is a node, give the box by --box X Y Z
",
    );
    place.put("a.nodes", &whole);
    let said = "gantry: a.nodes: a node file of the box 4 4 4, not of --box\n";
    place.run("text --box 4 4 5 a.nodes", b"").refused(1, said);
    let said = "gantry: a.nodes: a node file, and --leave-out is for text; see gantry text\n";
    place.run("text --leave-out a.nodes", b"").refused(1, said);
    let long = vec![b' '; (1 << 22) + 1];
    let said = "gantry: standard input: too long: at most 4,194,304 bytes\n";
    place.run("text -", &long).refused(1, said);
}

#[test]
fn a_node_that_does_not_go_in() {
    let place = Place::new("stop");
    let nodes = [[1, 2, 3], [2, 2, 2]];
    for (node, why) in [
        ([5, 0, 1], "refused 4 (outside): the box is 4 4 4"),
        (
            [4, 0, 4],
            "refused 5 (taken): it is box corner 5, which is not to be listed",
        ),
        (
            [1, 2, 3],
            "refused 5 (taken): it is at place 0 already, point 8",
        ),
    ] {
        let file = encode([4; 3], &[nodes[0], nodes[1], node, [1, 1, 1]]);
        place.put("a.nodes", &file);
        let [x, y, z] = node;
        let said = format!("gantry: a.nodes: place 2: node {x} {y} {z} did not go in: {why}\n");
        place.run("nodes a.nodes", b"").refused(1, &said);
        let list = place.run("list a.nodes", b"");
        assert_eq!((list.status, &list.said), (Some(1), &said));
        assert_eq!(list.output, plain::listing(&file).as_bytes());
        for line in [
            "svg a.nodes",
            "vtk a.nodes",
            "locate a.nodes 1 2 3",
            "look a.nodes 3 3 3",
            "svg --look 3 3 3 a.nodes",
            "vtk --look 3 3 3 a.nodes",
            "check a.nodes",
        ] {
            let shown = place.run(line, b"");
            assert_eq!((shown.status, &shown.said), (Some(1), &said));
            assert!(!shown.output.is_empty());
        }
        let check = String::from_utf8(place.run("check a.nodes", b"").output).expect("text");
        assert!(check.contains("\nevery node went in: no, 2 of 4 nodes\n"));
        assert!(check.ends_with("\nmesh check: yes\n"));
    }
}

#[test]
fn cells_full_names_the_line() {
    let place = Place::new("full");
    let mut random = Random::new(8);
    let mut text = "# random nodes\n100000 100000 100000\n".to_string();
    for _ in 0..700 {
        let [x, y, z] = [0; 3].map(|_| 1 + random.below(99_998));
        text += &format!("{x},{y},{z}\n");
    }
    place.put("random.csv", &text);
    let ran = place.run("nodes random.csv", b"");
    let stop = ran
        .said
        .strip_prefix("gantry: random.csv: line ")
        .expect("a line");
    let (line, rest) = stop.split_once(": place ").expect("a place");
    let (at, why) = rest.split_once(": node ").expect("a node");
    let (line, at): (usize, usize) = (line.parse().unwrap(), at.parse().unwrap());
    assert_eq!(line, at + 3);
    let node = text.lines().nth(line - 1).unwrap().replace(',', " ");
    assert!(why.starts_with(&format!("{node} did not go in: refused 8 (cells full): ")));
    assert!(why.ends_with(&format!(
        " cells and the new ones exceed 4,096; {at} nodes went in: use fewer, or divide the box\n"
    )));
    assert_eq!((ran.status, ran.output.len()), (Some(1), 0));
}

#[test]
fn what_is_left_out_is_told_and_done() {
    let place = Place::new("leave");
    let ran = place.run("text --leave-out -", b"4 4 4\n4 4 4\n1 2 3\n1 2 3\n");
    assert_eq!(ran.status, Some(0));
    assert_eq!(ran.output, b"4 4 4\n1 2 3\n");
    assert_eq!(
        ran.said,
        "gantry: standard input: line 2 left out: 4 4 4 is a corner of the box of line 1, point 7 from the start
gantry: standard input: line 4 left out: same as line 3, 1 2 3
"
    );
}

#[test]
fn a_listing_beside_its_nodes() {
    let place = Place::new("listing");
    place.put("a.nodes", encode([4; 3], &[[1, 2, 3], [2, 2, 2]]));
    let list = place.run("list a.nodes -o a.list", b"");
    list.done();
    let same = "the listing is the one that the builder makes of the nodes";
    let check = place.run("check --listing a.list a.nodes", b"").done();
    assert!(check.starts_with("a.list: box 4 4 4, 10 points, 18 cells\n"));
    assert!(check.contains(&format!("\n{same}: yes, of a.nodes\n")));
    let list = String::from_utf8(place.bytes("a.list")).expect("text");
    // Two corners of the first cell swapped with their neighbours.
    let line = list.lines().nth(1).unwrap();
    let words: Vec<&str> = line.split(' ').collect();
    let [n, a, b, c, d, e, f, g, h] = words[..] else {
        panic!("{line}")
    };
    place.put(
        "b.list",
        list.replacen(line, &format!("{n} {b} {a} {c} {d} {f} {e} {g} {h}"), 1),
    );
    let wrong = place.run("check --listing b.list a.nodes", b"");
    assert_eq!(
        (wrong.status, &wrong.said[..]),
        (Some(1), "gantry: b.list: its cells fail the mesh check\ngantry: b.list: line 2 differs from the builder's listing\n")
    );
    let said = String::from_utf8(wrong.output).expect("text");
    let fault = format!("every cell has a positive volume: no, cell {n} has the six-fold volume -");
    assert!(said.contains(&format!("\n{fault}")));
    assert!(said.contains(&format!("\n{same}: no, line 2 differs\n")));
    assert!(said.ends_with("\nmesh check: no\n"));
    // The same cells, but with other numbers.
    place.put("c.list", OF_0_6);
    place.put("c.nodes", encode([4; 3], &[[1, 2, 3]]));
    let other = place.run("check --listing c.list c.nodes", b"");
    assert_eq!(
        (other.status, &other.said[..]),
        (
            Some(1),
            "gantry: c.list: line 2 differs from the builder's listing\n"
        )
    );
    let said = String::from_utf8(other.output).expect("text");
    let difference = "line 2 differs; the cells are the same, with other numbers";
    assert!(said.contains(&format!("\n{same}: no, {difference}\n")));
    assert!(said.ends_with("\nmesh check: yes\n"));
    let said = "gantry: a.nodes: not a listing\n";
    place
        .run("check --listing a.nodes a.nodes", b"")
        .refused(1, said);
}

/// Of one node, with the numbers that cells had up to 0.6.
const OF_0_6: &str = "box 4 4 4 points 9 cells 12
0 8 1 3 7 - 2 10 1
1 0 1 3 8 0 3 11 -
2 8 3 2 7 - 4 0 3
3 0 3 2 8 2 5 1 -
4 8 2 6 7 - 6 2 5
5 0 2 6 8 4 7 3 -
6 8 6 4 7 - 8 4 7
7 0 6 4 8 6 9 5 -
8 8 4 5 7 - 10 6 9
9 0 4 5 8 8 11 7 -
10 8 5 1 7 - 0 8 11
11 0 5 1 8 10 1 9 -
";

/// The first of the cells that the command names is the one that the archive answers.
#[test]
fn the_located_cell_is_the_first_named() {
    let place = Place::new("holding");
    place.put("a", "4 4 4\n1 2 3\n2 2 0\n");
    let positions = (0..125).map(|k| format!(" {} {} {}", k % 5, k / 5 % 5, k / 25));
    let line = format!("locate a{}", positions.collect::<String>());
    let text = place.run(&line, b"").done();
    let blocks: Vec<&str> = text.split("position ").skip(1).collect();
    assert_eq!(blocks.len(), 125);
    let mut several = 0;
    for block in blocks {
        let mut lines = block.lines();
        let (_, cell) = lines.next().unwrap().split_once(": cell ").unwrap();
        let (cell, _) = cell.split_once(',').unwrap();
        if let Some((_, named)) = lines.next().unwrap().split_once("their corners: ") {
            assert!(named.starts_with(&format!("{cell} (")), "{block}");
            several += 1;
        }
    }
    // The others lie inside a cell, or on a wall in one.
    assert_eq!(several, 72);
}

#[test]
fn positions_volumes_spheres() {
    let place = Place::new("queries");
    place.put("a", "4 4 4\n1 2 3\n");
    let located = place.run("locate a 1 2 3 2 2 1", b"").done();
    assert_eq!(
        located,
        "position 1 2 3: cell 7, six-fold volume 48
  held by 12 cells, in the order of their corners: 7 (0 1 3 8), 17 (0 1 5 8), 9 (0 2 3 8), 11 (0 2 6 8), 15 (0 4 5 8), 13 (0 4 6 8) and 6 more
  corner 0: point 0 at 0 0 0, volume 0, share 0.0000
  corner 1: point 1 at 4 0 0, volume 0, share 0.0000
  corner 2: point 3 at 4 4 0, volume 0, share 0.0000
  corner 3: point 8 at 1 2 3, volume 48, share 1.0000
position 2 2 1: cell 7, six-fold volume 48
  corner 0: point 0 at 0 0 0, volume 12, share 0.2500
  corner 1: point 1 at 4 0 0, volume 4, share 0.0833
  corner 2: point 3 at 4 4 0, volume 16, share 0.3333
  corner 3: point 8 at 1 2 3, volume 16, share 0.3333
"
    );
    let outside = place.run("locate a 5 0 0 1 2 3 0 -1 0", b"");
    assert_eq!(
        (outside.status, &outside.said[..]),
        (
            Some(1),
            "gantry: position 5 0 0: refused 4 (outside): the box is 4 4 4
gantry: position 0 -1 0: refused 4 (outside): the box is 4 4 4
"
        )
    );
    assert!(outside.output.starts_with(b"position 1 2 3: cell 7,"));
    let four = "0 0 0 4 0 0 4 4 0 4 4 4";
    assert_eq!(place.run(&format!("volume {four}"), b"").done(), "64\n");
    let far = place.run("volume 0 0 0 4 0 0 4 4 0 4 4 131073", b"");
    far.refused(1, "gantry: a coordinate is outside 0 to 131,072\n");
    let sphere = |p: &str| place.run(&format!("sphere {four} {p}"), b"");
    assert_eq!(sphere("2 2 2").done(), "inside, T = 768\n");
    assert_eq!(sphere("0 0 0").done(), "outside, T = 0\n");
    let outside = sphere("131072 131072 131072").done();
    assert!(outside.starts_with("outside, T = -"));
    // A tie, and a sum that the float has with another sign.
    let tie = "sphere 0 0 0 3500 3500 0 0 3500 0 120 520 3370 3380 520 3370";
    assert_eq!(place.run(tie, b"").done(), "outside, T = 128\n");
    let near = "sphere 0 0 0 115625 2556 1400 120000 0 0 10122 6325 1013 7461 3986 2802";
    assert_eq!(place.run(near, b"").done(), "inside, T = -2773504\n");
    sphere("0 -1 0").refused(
        1,
        "gantry: refused 4 (outside): a coordinate is outside 0 to 131,072\n",
    );
    let flat = place.run("sphere 0 0 0 4 0 0 4 4 0 4 4 0 1 1 1", b"");
    flat.refused(
        1,
        "gantry: refused 11 (flat cell): the volume of a, b, c, d is 0 or less\n",
    );
}

#[test]
fn output_is_whole_or_lost() {
    let place = Place::new("output");
    place.put("a", "4 4 4\n1 2 3\n").put("old", "as it was");
    // A refused file leaves what was there.
    assert_eq!(
        place.run("nodes -o old -", b"4 4 4\n9 9 9\n").status,
        Some(1)
    );
    let outside = place.run("locate -o old a 9 9 9", b"");
    outside.refused(
        1,
        "gantry: position 9 9 9: refused 4 (outside): the box is 4 4 4\n",
    );
    assert_eq!(place.bytes("old"), b"as it was");
    place.run("text a -o old", b"").done();
    assert_eq!(place.bytes("old"), b"4 4 4\n1 2 3\n");
    // Through links, which stay; onto its own input; to standard output by name.
    for (to, link) in [
        ("old", "link"),
        ("new", "ahead"),
        ("/proc/self/fd/1", "out"),
    ] {
        std::os::unix::fs::symlink(to, place.0.join(link)).expect("a link");
    }
    place.run("list a -o link", b"").done();
    assert!(fs::symlink_metadata(place.0.join("link"))
        .unwrap()
        .is_symlink());
    assert!(place.bytes("old").starts_with(b"box 4 4 4 "));
    place.run("text a -o ahead", b"").done();
    assert_eq!(place.bytes("new"), b"4 4 4\n1 2 3\n");
    assert_eq!(place.run("text a -o out", b"").done(), "4 4 4\n1 2 3\n");
    for link in ["ahead", "out"] {
        assert!(fs::symlink_metadata(place.0.join(link))
            .unwrap()
            .is_symlink());
    }
    place.run("text a -o a", b"").done();
    assert_eq!(place.run("text a -o -", b"").done(), "4 4 4\n1 2 3\n");
    // A device is written to, not replaced.
    place.run("text a -o /dev/null", b"").done();
    assert!(!Path::new("/dev/null").is_file());
    assert_eq!(place.names(), ["a", "ahead", "link", "new", "old", "out"]);
    let lost = [
        (
            "/dev/full",
            "/dev/full: No space left on device (os error 28)",
        ),
        ("no/such", "no/such: No such file or directory (os error 2)"),
        (".", ".: Is a directory (os error 21)"),
    ];
    for (name, why) in lost {
        let ran = place.run(&format!("text a -o {name}"), b"");
        ran.refused(1, &format!("gantry: {why}\n"));
    }
    let full = fs::File::options()
        .write(true)
        .open("/dev/full")
        .expect("a full device");
    let ran = Command::new(GANTRY)
        .args(["--version"])
        .stdout(full)
        .output()
        .expect("it runs");
    assert_eq!(ran.status.code(), Some(1));
    assert_eq!(
        ran.stderr,
        b"gantry: standard output: No space left on device (os error 28)\n"
    );
    assert_eq!(place.names(), ["a", "ahead", "link", "new", "old", "out"]);
}

#[test]
fn a_write_that_fails_leaves_what_was_there() {
    let place = Place::new("failed");
    place.put("a", "4 4 4\n").put("old", "as it was");
    // No file may grow, and a write beyond that is an error instead of a signal.
    let limited = "ulimit -f 0; trap '' XFSZ; exec \"$0\" text a -o old";
    let ran = Command::new("sh")
        .args(["-c", limited, GANTRY])
        .current_dir(&place.0)
        .output()
        .expect("it runs");
    assert_eq!(ran.status.code(), Some(1));
    assert_eq!(ran.stderr, b"gantry: old: File too large (os error 27)\n");
    assert_eq!(place.bytes("old"), b"as it was");
    assert_eq!(place.names(), ["a", "old"]);
}

#[test]
fn permissions_stay() {
    use std::os::unix::fs::PermissionsExt;
    let place = Place::new("permissions");
    place.put("a", "4 4 4\n").put("p", "");
    fs::set_permissions(place.0.join("p"), fs::Permissions::from_mode(0o600)).expect("a mode");
    place.run("svg a -o p", b"").done();
    let mode = fs::metadata(place.0.join("p"))
        .expect("a file")
        .permissions()
        .mode();
    assert_eq!(mode & 0o777, 0o600);
}

#[test]
fn a_closed_pipe_is_quiet() {
    let place = Place::new("pipe");
    // More than a pipe holds, so that the command is still writing.
    let nodes: Vec<[u32; 3]> = (1..=1_016).map(|k| [k, 2, 2]).collect();
    place.put("a.nodes", encode([2_000, 4, 4], &nodes));
    for line in ["vtk a.nodes", "--help"] {
        let mut child = Command::new(GANTRY)
            .args(line.split_whitespace())
            .current_dir(&place.0)
            .stdout(Stdio::piped())
            .stderr(Stdio::piped())
            .spawn()
            .expect("the program starts");
        drop(child.stdout.take());
        let output = child.wait_with_output().expect("the program ends");
        assert_eq!((output.status.code(), output.stderr.len()), (Some(0), 0));
    }
}
