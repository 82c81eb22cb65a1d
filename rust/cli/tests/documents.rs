//! What the documents repeat of the program.

use std::ffi::OsString;

use gantry::{Mesh, CELL_LIMIT, CORRECTION_LIMIT, NODE_LIMIT, SIDE_LIMIT};
use gantry_cli::grid::Grid;
use gantry_cli::input::INPUT_LIMIT;
use gantry_cli::listing::FILE_LIMIT;
use gantry_cli::text::FAULTS_TOLD;
use gantry_cli::{commands, grouped, svg};

const CHANGELOG: &str = include_str!("../../../CHANGELOG.md");
const MANUAL: &str = include_str!("../../../docs/MANUAL.md");

#[test]
fn the_changelog_begins_with_this_version() {
    let version = CHANGELOG.lines().find_map(|line| line.strip_prefix("## "));
    assert_eq!(version, Some(env!("CARGO_PKG_VERSION")));
}

#[test]
fn the_manual_s_box_is_the_command_s() {
    let mesh = Mesh::start(4, 4, 4).unwrap();
    let picture = Grid::from(&mesh).to_svg(&[], None, &[]);
    // Not assert_eq, which would print both.
    assert!(picture == include_str!("../../../docs/box.svg"));
}

/// The pictures of the survey, as it is, with a look and with a drive.
#[test]
fn the_pictures_of_the_survey_are_the_command_s() {
    const SURVEY: &str = concat!(
        env!("CARGO_MANIFEST_DIR"),
        "/../../examples/survey/tracker-steps.csv"
    );
    let drawn = |option: &str| {
        let words = format!("svg --box 20000 12000 8000 --leave-out {option}");
        let words = words.split_whitespace().chain([SURVEY]);
        let line: Vec<OsString> = words.map(OsString::from).collect();
        let (done, _) = commands::perform(&line).expect("a picture");
        done.output
    };
    assert!(drawn("") == include_bytes!("../../../docs/mesh.svg"));
    assert!(drawn("--look 15000 3000 5000") == include_bytes!("../../../docs/look.svg"));
    let drive = "--drive 2000 1000 6000 19000 4000 2000";
    assert!(drawn(drive) == include_bytes!("../../../docs/drive.svg"));
}

fn help_of(name: &str) -> String {
    let line = ["help", name].map(OsString::from);
    let (done, _) = commands::perform(&line).expect("help");
    String::from_utf8(done.output).expect("text")
}

#[test]
fn the_manual_has_the_limits() {
    let (_, limits) = MANUAL.split_once("\n## Limits\n").unwrap();
    let (limits, _) = limits.split_once("\n\nThe cells are").unwrap();
    for limit in [
        SIDE_LIMIT as usize,
        NODE_LIMIT,
        CELL_LIMIT,
        CORRECTION_LIMIT as usize,
        FILE_LIMIT,
        INPUT_LIMIT,
    ] {
        assert!(limits.contains(&grouped(limit)), "{limit}");
    }
    let (points, cells) = (svg::NUMBERED_POINTS, svg::NUMBERED_CELLS);
    let words = MANUAL.split_whitespace().collect::<Vec<_>>().join(" ");
    assert!(words.contains(&format!(
        "point numbers up to {points} points and cell numbers up to {cells} cells"
    )));
    assert!(words.contains(&format!(
        "each fault has its line, up to {FAULTS_TOLD} of them"
    )));
    let shown = svg::NUMBERED_EMPHASIS;
    assert!(words.contains(&format!(
        "Cell numbers are then theirs alone, up to {shown} such cells; of more than {points} points"
    )));
    let help = help_of("svg");
    assert!(help.contains(&format!(
        "at\nmost {points}, cells where there are at most {cells}."
    )));
    assert!(help.contains(&format!("where there are at most {shown}")));
}
