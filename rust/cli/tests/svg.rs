use std::collections::BTreeSet;

use gantry::{Mesh, Position};
use gantry_cli::drive::Drive;
use gantry_cli::grid::Grid;
use gantry_cli::labels::{Page, Point2, Rectangle};
use gantry_cli::look::Replacing;
use gantry_cli::svg::Emphasis;
use plain::random::Random;

fn built(sides: Position, nodes: &[Position]) -> Mesh {
    let [x, y, z] = sides;
    let mut mesh = Mesh::start(x, y, z).unwrap();
    mesh.insert_list(nodes).unwrap();
    mesh
}

fn picture(sides: Position, nodes: &[Position]) -> String {
    Grid::from(&built(sides, nodes)).to_svg(&[], None, &[])
}

/// With the look that it is of.
fn picture_of_look(mesh: &mut Mesh, node: Position) -> (String, Replacing) {
    let replacing = Replacing::of(mesh, node).unwrap();
    let emphasis = Some(Emphasis::Look(&replacing));
    let text = Grid::from(&*mesh).to_svg(&[replacing.summary()], emphasis, &[]);
    (text, replacing)
}

fn picture_of_drive(mesh: &mut Mesh, ends: [Position; 2]) -> (String, Drive) {
    let drive = Drive::of(mesh, ends).unwrap();
    let emphasis = Some(Emphasis::Drive(&drive));
    let text = Grid::from(&*mesh).to_svg(&[drive.summary()], emphasis, &[]);
    (text, drive)
}

fn counts(text: &str) -> [usize; 3] {
    ["<line ", "<circle ", "<text "].map(|tag| text.matches(tag).count())
}

/// Three axes and two lines of caption.
const WORDS: usize = 5;

#[test]
fn every_edge_point_and_number_is_drawn() {
    // Twelve edges of the box, six diagonals and one through the middle, each with its border.
    let expected = [2 * 19, 8, 8 + 6 + WORDS];
    assert_eq!(counts(&picture([4; 3], &[])), expected);
    // The node takes the middle one's place, and is joined to all corners; its number is joined to it.
    let expected = [2 * 26 + 1, 9, 9 + 12 + WORDS];
    assert_eq!(counts(&picture([4; 3], &[[1, 2, 3]])), expected);
}

#[test]
fn many_cells_have_no_numbers() {
    let nodes = [[1, 1, 1], [3, 1, 2], [2, 3, 1], [1, 3, 3]];
    assert_eq!(counts(&picture([4; 3], &nodes))[1..], [12, 12 + WORDS]);
    let nodes: Vec<Position> = (1..60).map(|k| [k, 1, 1]).collect();
    assert_eq!(counts(&picture([60, 4, 4], &nodes))[1..], [67, WORDS]);
}

/// The labels in the colour of cells.
fn cell_numbers(text: &str) -> BTreeSet<usize> {
    let lines = text
        .lines()
        .filter(|line| line.contains("fill=\"#1e6e46\" stroke=\"#ffffff\""));
    let words = lines.map(|line| line.split_once('>').expect("a label").1.split_once('<'));
    words
        .map(|words| words.expect("a label").0.parse().expect("a number"))
        .collect()
}

#[test]
fn cells_have_their_own_numbers() {
    let mut mesh = built([4; 3], &[[1, 2, 3], [2, 2, 0]]);
    assert!(mesh.used() > mesh.cells().len());
    let text = Grid::from(&mesh).to_svg(&[], None, &[]);
    assert_eq!(
        cell_numbers(&text),
        mesh.cells().map(|cell| cell.number).collect()
    );
    let (text, replacing) = picture_of_look(&mut mesh, [0, 2, 2]);
    assert_eq!(cell_numbers(&text), replacing.look.cells().collect());
}

/// A picture without numbers of cells does not depend on them.
#[test]
fn gaps_between_the_numbers_are_not_seen() {
    let nodes = [[1, 1, 1], [3, 1, 2], [2, 3, 1], [1, 3, 3]];
    let mesh = built([4; 3], &nodes);
    assert!(mesh.used() > mesh.cells().len() && mesh.cells().len() > 24);
    let mut grid = Grid::from(&mesh);
    let picture = grid.to_svg(&[], None, &[]);
    for (place, cell) in grid.cells.iter_mut().enumerate() {
        cell.number = place;
    }
    assert!(grid.to_svg(&[], None, &[]) == picture);
}

#[test]
fn the_picture_has_its_place_on_the_page() {
    let text = picture([131_072, 1, 500], &[]);
    assert!(text.ends_with("</g>\n</svg>\n"));
    assert!(!text.contains("NaN") && !text.contains("inf"));
    // The caption has its room beside a tall box.
    let text = picture([1, 1, 131_072], &[]);
    let width = text
        .split_once("width=\"")
        .unwrap()
        .1
        .split_once('"')
        .unwrap()
        .0;
    let longest = "blue: box corners, brown: nodes, green: cells; short sides are drawn longer";
    assert!(width.parse::<usize>().unwrap() > 6 * longest.len());
}

#[test]
fn labels_without_a_place_are_counted() {
    let nodes: Vec<Position> = (0..56)
        .map(|k| [k % 4, k / 4 % 4, k / 16].map(|n| n + 1))
        .collect();
    let text = picture([131_072; 3], &nodes);
    let drawn = counts(&text)[2] - WORDS - 1;
    let left_out = format!(">{} labels left out for want of room</text>", 64 - drawn);
    assert!(drawn < 64 && text.contains(&left_out));
}

#[test]
fn a_caption_is_text() {
    let mesh = Mesh::start(4, 4, 4).unwrap();
    let text = Grid::from(&mesh).to_svg(&["a < b & c > d\n".to_string()], None, &[]);
    assert!(text.contains(">a &lt; b &amp; c &gt; d</text>"));
}

/// The labels of a picture, as what a browser draws takes: half a digit's width and height round each centre.
fn labels(text: &str) -> Vec<Rectangle> {
    let number = |line: &str, name: &str| -> Option<f64> {
        line.split_once(&format!("{name}=\""))?
            .1
            .split_once('"')?
            .0
            .parse()
            .ok()
    };
    let lines = text
        .lines()
        .filter(|line| line.starts_with("<text ") && line.contains("paint-order"));
    let label = |line: &str| {
        let words = line.split_once('>')?.1.split_once('<')?.0;
        let centre = Point2 {
            x: number(line, "x")?,
            y: number(line, "y")? - 4.3,
        };
        Some(Rectangle::round(centre, 3.6 * words.len() as f64, 4.5))
    };
    lines.map(|line| label(line).expect("a label")).collect()
}

#[test]
fn labels_of_small_meshes_do_not_overlap() {
    let mut random = Random::new(7);
    for _ in 0..60 {
        let sides = [20, 400, 100_000].map(|limit| 20 + random.below(limit) as u32);
        let mut mesh = Mesh::start(sides[0], sides[1], sides[2]).unwrap();
        for _ in 0..random.below(12) {
            let _ = mesh.insert(sides.map(|side| random.below(u64::from(side) + 1) as u32));
        }
        let grid = Grid::from(&mesh);
        let labels = labels(&grid.to_svg(&[], None, &[]));
        let cells = if grid.cells.len() <= 24 {
            grid.cells.len()
        } else {
            0
        };
        assert_eq!(
            labels.len(),
            grid.points.len() + cells + 3,
            "{:?}",
            grid.summary()
        );
        assert!(!do_overlap(&labels), "{}", grid.summary());
        // And with a look.
        let node = sides.map(|side| 1 + random.below(u64::from(side) - 1) as u32);
        let Ok(replacing) = Replacing::of(&mut mesh, node) else {
            continue;
        };
        let labels = self::labels(&grid.to_svg(&[], Some(Emphasis::Look(&replacing)), &[]));
        assert!(!do_overlap(&labels), "{}", replacing.summary());
    }
}

fn do_overlap(labels: &[Rectangle]) -> bool {
    let overlaps = |k: usize| labels[..k].iter().any(|other| other.overlaps(&labels[k]));
    (0..labels.len()).any(overlaps)
}

/// Of the edges and their borders: not of the leaders to labels, which are thin.
fn strokes(text: &str) -> Vec<&str> {
    let lines = text.lines().filter(|line| line.starts_with("<line "));
    let lines = lines.filter(|line| !line.contains("stroke-width=\"0.50\""));
    let strokes = lines.map(|line| line.split_once("stroke=\"#").expect("a colour").1);
    strokes.map(|stroke| &stroke[..6]).collect()
}

/// The others are blue or nearly white.
fn is_orange(stroke: &&str) -> bool {
    let shade = |k: usize| u8::from_str_radix(&stroke[k..k + 2], 16).expect("a shade");
    shade(0) > shade(2) && shade(2) > shade(4) && shade(4) < 0x80
}

/// How many points are corners of cells that would be replaced.
fn corners(replacing: &Replacing) -> usize {
    let corners = replacing.cells.iter().flat_map(|cell| cell.corners);
    corners.collect::<BTreeSet<_>>().len()
}

/// A tint for each cell, a line for each edge, dashes for the edges that would go: as the look has them.
#[test]
fn a_look_stands_out() {
    let mut random = Random::new(3);
    let mut dashed = 0;
    for sides in [[4, 4, 4], [60, 9, 5], [2_000, 1_200, 800], [1, 131_072, 3]] {
        let mut mesh = built(sides, &[]);
        for _ in 0..25 {
            let node = sides.map(|side| random.below(u64::from(side) + 1) as u32);
            let Ok(look) = mesh.look(node) else {
                continue;
            };
            let (text, replacing) = picture_of_look(&mut mesh, node);
            assert!(!text.contains("NaN") && !text.contains("inf"));
            let count = |what: &str| text.matches(what).count();
            assert_eq!(count("<path "), look.cells().count());
            assert_eq!(count("stroke-dasharray"), replacing.lost.len());
            let orange = strokes(&text).into_iter().filter(is_orange).count();
            assert_eq!(orange, replacing.edges.len());
            // The points are filled, pale if they are no corners; the node is a ring with the next number.
            let points = mesh.points().len();
            assert_eq!(count("<circle "), points + 1);
            let pale = text
                .lines()
                .filter(|l| l.starts_with("<circle ") && l.contains("opacity"));
            assert_eq!(pale.count(), points - corners(&replacing));
            assert_eq!(count("fill=\"#ffffff\" stroke=\"#7a1fa2\""), 1);
            assert!(text.contains(&format!(">{points}</text>")));
            assert!(text.contains(&format!(">{}</text>", replacing.summary())));
            dashed += replacing.lost.len();
            mesh.insert(node).unwrap();
        }
    }
    assert!(dashed > 100, "{dashed}");
}

/// A tint for each cell on it, a line for each of their edges, one from A to B, and two rings.
#[test]
fn a_drive_stands_out() {
    let mut random = Random::new(5);
    let mut listed = BTreeSet::new();
    for sides in [[4, 4, 4], [60, 9, 5], [2_000, 1_200, 800], [1, 131_072, 3]] {
        let mut mesh = built(sides, &[]);
        for _ in 0..25 {
            let mut place = || sides.map(|side| random.below(u64::from(side) + 1) as u32);
            let (a, b) = (place(), place());
            let _ = mesh.insert(place());
            let (text, drive) = picture_of_drive(&mut mesh, [a, b]);
            assert!(!text.contains("NaN") && !text.contains("inf"));
            let count = |what: &str| text.matches(what).count();
            let cells = mesh.drive_cells(a, b).unwrap();
            assert_eq!(count("<path "), cells.len());
            assert_eq!(count("stroke-dasharray"), 0);
            let orange = strokes(&text).into_iter().filter(is_orange).count();
            assert_eq!(orange, drive.edges.len());
            let purple = strokes(&text)
                .into_iter()
                .filter(|&stroke| stroke == "7a1fa2");
            assert_eq!(purple.count(), 1);
            assert_eq!(count("fill=\"#ffffff\" stroke=\"#7a1fa2\""), 2);
            assert_eq!(count(">A</text>") + count(">B</text>"), 2);
            assert!(text.contains(&format!(">{}</text>", drive.summary())));
            if cells.len() <= 12 && !text.contains("left out for want of room") {
                assert_eq!(cell_numbers(&text), cells.iter().copied().collect());
            }
            listed.insert(cells.len());
        }
    }
    assert!(listed.len() > 5, "{listed:?}");
}

#[test]
fn no_edge_is_missing_beside_a_look() {
    let mut mesh = built([4; 3], &[[1, 2, 3], [2, 2, 0]]);
    let without = picture([4; 3], &[[1, 2, 3], [2, 2, 0]]);
    assert!(!strokes(&without).iter().any(is_orange));
    // In front, behind, on a wall, on a box edge, and so on.
    for node in (0..125).map(|k| [k % 5, k / 5 % 5, k / 25]) {
        if mesh.look(node).is_ok() {
            let (text, _) = picture_of_look(&mut mesh, node);
            assert_eq!(strokes(&text).len(), strokes(&without).len());
        }
    }
}

#[test]
fn the_numbers_beside_a_look() {
    // Those of all points and of the cells that would be replaced.
    let mut mesh = built([4; 3], &[[1, 2, 3]]);
    let (text, replacing) = picture_of_look(&mut mesh, [3, 1, 1]);
    assert_eq!(labels(&text).len(), 1 + 9 + replacing.cells.len() + 3);
    assert!(text.contains(">blue: box corners, brown: nodes, ring: the new one, green: cells<"));
    // Of more than 64 points, the corners of these cells; of more than 12 cells, none.
    let nodes: Vec<Position> = (1..60).map(|k| [2_000 * k, 1_000, 1_000]).collect();
    let mut mesh = built([120_000, 40_000, 40_000], &nodes);
    let (text, replacing) = picture_of_look(&mut mesh, [60_000, 9_000, 9_000]);
    let corners = corners(&replacing);
    assert!(corners < 64 && replacing.cells.len() > 12);
    assert_eq!(labels(&text).len(), 1 + corners + 3);
    assert!(!text.contains("green"));
}

#[test]
fn a_label_goes_where_nothing_is() {
    let edge = Rectangle::round(Point2 { x: 50.0, y: 50.0 }, 50.0, 50.0);
    let dot = Rectangle::round(Point2 { x: 50.0, y: 50.0 }, 3.0, 3.0);
    let anchor = Point2 { x: 50.0, y: 50.0 };
    let mut page = Page::new(edge, vec![dot], Vec::new());
    let first = page.place("7", 12.0, anchor, 12.0).unwrap();
    let second = page.place("8", 12.0, anchor, 12.0).unwrap();
    assert_eq!(first, Point2 { x: 62.0, y: 50.0 });
    assert_ne!(first, second);
    // A line through the first place makes another one better.
    let line = [Point2 { x: 50.0, y: 50.0 }, Point2 { x: 100.0, y: 50.0 }];
    let mut page = Page::new(edge, vec![dot], vec![line]);
    let crossed = page.place("7", 12.0, anchor, 12.0).unwrap();
    assert!((crossed.y - 50.0).abs() > 4.0);
    // There is no place where all is taken.
    let mut page = Page::new(edge, vec![edge], Vec::new());
    assert_eq!(page.place("7", 12.0, anchor, 12.0), None);
}
