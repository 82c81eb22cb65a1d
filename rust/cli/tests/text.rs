//! Text as a fitter writes it or a spreadsheet exports it.

use gantry::Position;
use gantry_cli::text::{read, Read, Reading};

const PLAIN: Reading = Reading {
    sides: None,
    leave_out: false,
};

fn nodes(text: &[u8]) -> (Position, Vec<Position>) {
    let Read { sides, nodes, .. } = read(text, PLAIN).unwrap();
    (sides, nodes)
}

fn faults(text: &str) -> Vec<String> {
    read(text.as_bytes(), PLAIN).unwrap_err()
}

const SEPARATORS: &str = "numbers are written without decimals and without separators of thousands";

/// The one fault of a node's line, after a box of 4, 4, 4.
fn fault(line: &str) -> String {
    let faults = faults(&format!("4 4 4\n{line}\n"));
    assert_eq!(faults.len(), 1, "{faults:?}");
    faults[0].strip_prefix("line 2: ").unwrap().to_string()
}

/// The same where separators in a number may be the reason.
fn broken(line: &str) -> String {
    let faults = faults(&format!("4 4 4\n{line}\n"));
    assert_eq!(faults[1..], [SEPARATORS]);
    faults[0].strip_prefix("line 2: ").unwrap().to_string()
}

#[test]
fn by_hand() {
    let text = b"# survey of Tuesday\n4 4 4 # the box\n\n1 2 3\n  2   2 2  \r\n+3 03 0\n#\n1 1 1 #";
    let expected = vec![[1, 2, 3], [2, 2, 2], [3, 3, 0], [1, 1, 1]];
    assert_eq!(nodes(text), ([4; 3], expected));
    assert_eq!(nodes(b"131072 1 7"), ([131_072, 1, 7], vec![]));
}

#[test]
fn lines_are_counted_from_one() {
    let text = b"# heading\r\n4 4 4\r\n\r\n1 2 3\r\n2 2 2";
    let found = read(text, PLAIN).unwrap();
    assert_eq!((found.box_line, found.lines), (Some(2), vec![4, 5]));
    let text = b"4 4 4\r1 2 3\r2 2 2\r";
    assert_eq!(read(text, PLAIN).unwrap().lines, [2, 3]);
}

#[test]
fn what_spreadsheets_export() {
    let expected = ([4; 3], vec![[1, 2, 3], [2, 2, 0]]);
    let exports: [&[u8]; 8] = [
        b"4,4,4\n1,2,3\n2,2,0\n",
        b"x,y,z\n4,4,4\n1, 2, 3\n2,2,0\n",
        b"\xef\xbb\xbfx;y;z\r\n4;4;4\r\n1;2;3\r\n2;2;0\r\n",
        b"X [0.1 mm]\tY [0.1 mm]\tZ [0.1 mm]\n4\t4\t4\n1\t2\t3\n2\t2\t0\t\t\n",
        b"\"x\",\"y\",\"z\"\n\"4\",\"4\",\"4\"\n\"1\",\"2\",\"3\"\n\"2\",\"2\",\"0\"\n",
        b"Survey\n\nx;y;z;;\n4;4;4;;\n1;2;3;;\n;;;;\n2;2;0;;\n",
        // A heading in Latin-1, and lines that end in a carriage return.
        b"L\xe4nge;H\xf6he;Tiefe\r4;4;4\r1;2;3\r2;2;0",
        b"Nominal x;Nominal y;Nominal z;remark\n4; 4; 4\n1; 2; 3\n2; 2; 0\n",
    ];
    for export in exports {
        assert_eq!(
            nodes(export),
            expected,
            "{}",
            String::from_utf8_lossy(export)
        );
    }
}

#[test]
fn the_box_may_be_given() {
    let reading = Reading {
        sides: Some([4; 3]),
        leave_out: false,
    };
    let found = read(b"x;y;z\n1;2;3\n2;2;0\n", reading).unwrap();
    assert_eq!(
        (found.sides, found.box_line, found.lines),
        ([4; 3], None, vec![2, 3])
    );
    assert_eq!(found.notes, ["line 1 passed over as a heading: 'x;y;z'"]);
    assert_eq!(
        read(b"x;y;z\n", reading).unwrap_err(),
        ["no line of numbers"]
    );
}

#[test]
fn a_box_below_a_heading_is_told() {
    let found = read(b"x;y;z\n9;9;9\n1;2;3\n", PLAIN).unwrap();
    let told = [
        "line 1 passed over as a heading: 'x;y;z'",
        "line 2 is the box: 9 9 9",
    ];
    assert_eq!(found.notes, told);
    assert!(read(b"9;9;9\n1;2;3\n", PLAIN).unwrap().notes.is_empty());
}

/// No line that may be a node is passed over: what has a digit outside brackets, or is a spreadsheet's error.
#[test]
fn no_node_is_taken_for_a_heading() {
    let reading = Reading {
        sides: Some([4000; 3]),
        leave_out: false,
    };
    let lines = [
        "X500 Y400 Z300",
        "x=500;y=400;z=300",
        "'500;'400;'300",
        "=\"500\";=\"400\";=\"300\"",
        "N10 G1 X5",
        "５００;４００;３００",
        "#REF!;400;300",
        "#N/A;#N/A;#N/A",
        "##### ##### #####",
        "#500 400 300",
        "Survey 12",
        "Err:502;400;300",
        "P1;500;400;300",
        "(500);(400);(300)",
        "[500];[400];[300]",
        "x (500) 4 (1);y;z",
    ];
    for line in lines {
        let first = read(format!("{line}\n1;2;3\n").as_bytes(), reading).unwrap_err();
        let said = format!("line 1: '{line}' is not a line of numbers; begin a heading with '# '");
        assert_eq!(first[0], said, "{first:?}");
        let later = read(format!("1;2;3\n{line}\n").as_bytes(), reading).unwrap_err();
        assert!(later[0].starts_with("line 2: "), "{later:?}");
    }
    let error =
        "is a spreadsheet's error: repair the cell or widen the column, and export it again";
    assert_eq!(fault("#REF!;4;3"), format!("'#REF!' {error}"));
}

#[test]
fn columns_in_another_order() {
    for (heading, named) in [
        ("z;x;y", "z x y"),
        ("z [mm]\ty [mm]\tx [mm]", "z y x"),
        ("Pos Z;Pos Y;Pos X", "z y x"),
        ("pos_y;pos_x;pos_z", "y x z"),
        ("z;y;x;remark", "z y x"),
        ("# z y x", "z y x"),
        ("Nr;X;Y", "x y"),
    ] {
        let told = faults(&format!("{heading}\n4;4;4\n"));
        assert_eq!(
            told,
            [format!(
                "line 1: a heading with the columns {named}; the order is x y z"
            )]
        );
    }
}

#[test]
fn wrong_numbers() {
    let whole = "is not a whole number: scale to whole steps";
    for (line, number) in [
        ("1 2.5 3", "2.5"),
        ("1 2.0 3", "2.0"),
        ("1 .5 3", ".5"),
        ("1,5;2;3", "1,5"),
        ("1,5\t2\t3", "1,5"),
        ("1.000;2;3", "1.000"),
        ("1 000;2;3", "1 000"),
        ("1 000\t2\t3", "1 000"),
        ("2\t2 2\t3", "2 2"),
        ("1\u{a0}000;2;3", "1\u{a0}000"),
        ("1'000 2 3", "1'000"),
        ("\"1,000\",2,3", "1,000"),
    ] {
        assert_eq!(broken(line), format!("'{number}' {whole}"));
    }
    let negative = "is negative: the box begins at 0, so shift the coordinates";
    assert_eq!(fault("1 -a2 3"), "'-a2' is not a number");
    assert_eq!(fault("1 -2 3"), format!("'-2' {negative}"));
    assert_eq!(fault("1 −2 3"), format!("'−2' {negative}"));
    assert_eq!(broken("1;-2,5;3"), format!("'-2,5' {negative}"));
    let scientific =
        "is in scientific notation: format the column as whole numbers and export it again";
    assert_eq!(fault("1 2 3E+00"), format!("'3E+00' {scientific}"));
    assert_eq!(
        fault("1 2 4294967296"),
        "'4294967296' is too large: at most 131,072"
    );
    assert_eq!(fault("1 2 mm"), "'mm' is not a number");
    assert_eq!(fault("1 2 3mm"), "'3mm' is not a number");
    assert_eq!(broken("3\"0\",4,3"), "'3\"0\"' is not a number");
    assert_eq!(fault("1 2 \u{7}"), "'\\u{7}' is not a number");
    let long = "x".repeat(50);
    assert_eq!(
        fault(&format!("1 2 {long}")),
        format!("'{}..' is not a number", &long[..40])
    );
}

#[test]
fn wrong_counts() {
    assert_eq!(fault("1"), "1 column, and a node has three, x y z");
    assert_eq!(fault("1 2"), "2 columns, and a node has three, x y z");
    assert_eq!(fault("1 2 3 P7"), "4 columns, and a node has three, x y z");
    assert_eq!(
        broken("1,5,2,5,3,5"),
        "6 columns, and a node has three, x y z"
    );
    assert_eq!(
        broken("1,000 2 3"),
        "2 columns, and a node has three, x y z"
    );
    assert_eq!(
        fault(&"1;".repeat(300)),
        "100 columns or more, and a node has three, x y z"
    );
    assert_eq!(
        faults("4 4"),
        ["line 1: 2 columns, and the box has three, X Y Z"]
    );
    // An empty column is not skipped, whatever separates.
    for (line, column) in [("1;;3", 2), ("1\t\t3", 2), ("\t2\t3", 1)] {
        assert_eq!(fault(line), format!("column {column} is empty"));
    }
    assert_eq!(broken(",2,3"), "column 1 is empty");
    assert_eq!(fault("3\t\t2\t1"), "4 columns, and a node has three, x y z");
}

#[test]
fn wrong_boxes() {
    let none = "no line of numbers: the box X Y Z comes first, or is given by --box X Y Z";
    assert_eq!(faults("# nothing\n"), [none]);
    assert_eq!(faults("x y z\n"), [none]);
    let hint = |line| {
        format!("line {line} was taken as the box; if it is a node, give the box by --box X Y Z")
    };
    let flat = "line 2: a box 4 0 4: its sides are from 1 to 131,072";
    assert_eq!(faults("#\n4 0 4"), [flat, &hint(2)]);
    let long = "line 1: a box 131073 1 1: its sides are from 1 to 131,072";
    assert_eq!(faults("131073 1 1"), [long, &hint(1)]);
    // Nothing is said of nodes in a box that is none.
    assert_eq!(faults("4 4.5 4\n9 9 9")[1..], [SEPARATORS]);
}

#[test]
fn nodes_that_would_not_go_in() {
    let hint = "with --leave-out, box corners and repeated nodes are left out";
    let repeated = faults("4 4 4\n1 2 3\n2 2 2\n\n1;2;3\n");
    assert_eq!(
        repeated,
        ["line 5: same as line 2, 1 2 3: leave it out", hint]
    );
    let corner = faults("\n4 4 4\n4 0 4\n");
    let said =
        "line 3: 4 0 4 is a corner of the box of line 2, point 5 from the start: leave it out";
    assert_eq!(corner, [said, hint]);
    let outside = faults("500 400 300\n1500 400 300\n");
    assert_eq!(
        outside[0],
        "line 2: 1500 400 300 is outside the box 500 400 300 of line 1"
    );
    let hint = "line 1 was taken as the box; if it is a node, give the box by --box X Y Z";
    assert_eq!(outside[1..], [hint]);
}

#[test]
fn what_is_left_out_is_told() {
    let reading = Reading {
        sides: Some([4; 3]),
        leave_out: true,
    };
    let text = format!(
        "0 0 0\n1 2 3\n4 4 4\n1 2 3\n2 2 2\n{}",
        "1 2 3\n".repeat(30)
    );
    let found = read(text.as_bytes(), reading).unwrap();
    assert_eq!(
        (found.nodes, found.lines),
        (vec![[1, 2, 3], [2, 2, 2]], vec![2, 5])
    );
    let told = [
        "line 1 left out: 0 0 0 is a corner of the box, point 0 from the start",
        "line 3 left out: 4 4 4 is a corner of the box, point 7 from the start",
        "line 4 left out: same as line 2, 1 2 3",
    ];
    assert_eq!(found.notes[..3], told);
    assert_eq!(found.notes.len(), 33);
}

#[test]
fn every_fault_is_told_up_to_twenty() {
    let faults = faults(&format!("4 4 4\n{}", "1.5 2 3\n".repeat(25)));
    assert!(faults[19].starts_with("line 21: "));
    assert_eq!(faults[20..], ["and 5 more", SEPARATORS]);
}

#[test]
fn at_most_1016_nodes() {
    let text = |count: usize| {
        let nodes = (1..=count).map(|k| format!("{k} 1 1\n"));
        format!("9000 4 4\n{}", nodes.collect::<String>())
    };
    assert_eq!(
        read(text(1_016).as_bytes(), PLAIN).unwrap().nodes.len(),
        1_016
    );
    let said = |count| {
        format!("line 1018: {count} nodes, and 1,016 is the most: use fewer, or divide the box")
    };
    assert_eq!(faults(&text(1_017)), [said("1,017")]);
    assert_eq!(faults(&text(5_000)), [said("5,000")]);
}
