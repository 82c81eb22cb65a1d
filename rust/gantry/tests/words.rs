//! The refusals' words, said once in the bindings: the header and the manual have the same.

use gantry::Refusal;

const HEADER: &str = include_str!("../../../include/gantry.h");
const MANUAL: &str = include_str!("../../../docs/MANUAL.md");

/// What the header says of a refusal: its name there, its number, when it is answered.
fn defined(line: &str) -> Option<(String, u8, &str)> {
    let (name, rest) = line.strip_prefix("#define GANTRY_")?.split_once(' ')?;
    let (number, when) = rest.split_once("/* ")?;
    let name = name.to_lowercase().replace('_', " ");
    let number = number.trim().parse().ok()?;
    Some((name, number, when.strip_suffix(" */")?))
}

#[test]
fn the_header_has_them() {
    let (_, refusals) = HEADER.split_once("#define GANTRY_ACCEPTED 0\n").unwrap();
    let (refusals, _) = refusals.split_once("\n\n").unwrap();
    let lines: Vec<_> = refusals
        .lines()
        .map(|line| defined(line).unwrap())
        .collect();
    let expected = Refusal::ALL.map(|r| (r.name().to_string(), r.number(), r.when()));
    assert_eq!(lines, expected);
}

#[test]
fn the_manual_has_them() {
    let (_, section) = MANUAL.split_once("\n## Refusals\n").unwrap();
    let (section, _) = section.split_once("\n## ").unwrap();
    let rows: Vec<[&str; 3]> = section
        .lines()
        .filter_map(|line| line.strip_prefix("| "))
        .skip(1)
        .map(|row| {
            let columns: Vec<&str> = row.split(" | ").collect();
            [columns[0], columns[1], columns[2]]
        })
        .collect();
    for (row, refusal) in rows.iter().zip(Refusal::ALL) {
        let number = refusal.number().to_string();
        assert_eq!(*row, [&number, refusal.name(), refusal.when()]);
    }
    assert_eq!(rows.len(), Refusal::ALL.len());
}
