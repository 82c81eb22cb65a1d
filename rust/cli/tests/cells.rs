//! Listings written and read back, and what is said of their cells.

use std::sync::atomic::{AtomicUsize, Ordering};

use gantry::{Cell, Mesh, Position};
use gantry_cli::check::{conditions, is_mesh};
use gantry_cli::grid::Grid;
use gantry_cli::listing;
use gantry_cli::survey::Survey;
use gantry_cli::text::Reading;
use plain::nodefile::encode;
use plain::random::Random;

/// Through a file of its own, as the command reads it: tests run beside each other.
fn survey(name: &str, bytes: &[u8]) -> Survey {
    static SURVEYS: AtomicUsize = AtomicUsize::new(0);
    let number = SURVEYS.fetch_add(1, Ordering::Relaxed);
    let path = std::env::temp_dir().join(format!("gantry-cells-{}-{number}", std::process::id()));
    std::fs::write(&path, bytes).expect("a temporary file");
    let mut survey = Survey::read(path.as_os_str(), Reading::default()).expect("a survey");
    std::fs::remove_file(&path).expect("the temporary file");
    survey.name = name.to_string();
    survey
}

fn listed(survey: &Survey) -> (Grid, String) {
    let built = survey.build().unwrap();
    let grid = Grid::from(&built.mesh);
    let text = listing::text(&grid, built.stopped);
    (grid, text)
}

#[test]
fn a_listing_is_the_plain_build_s_and_reads_back() {
    let lists: [&[Position]; 4] = [
        &[],
        &[[1, 2, 3], [2, 2, 2], [0, 1, 4]],
        // The third node is taken, then outside.
        &[[1, 2, 3], [2, 2, 2], [2, 2, 2], [0, 1, 4]],
        &[[1, 2, 3], [2, 2, 2], [5, 0, 0]],
    ];
    for nodes in lists {
        let file = encode([4; 3], nodes);
        let survey = survey("both", &file);
        let (grid, text) = listed(&survey);
        assert_eq!(text, plain::listing(&file));
        assert_eq!(listing::read(text.as_bytes(), &survey), Ok(grid));
    }
}

#[test]
fn listings_that_do_not_fit() {
    let one = survey("one", &encode([4; 3], &[[1, 2, 3]]));
    let (_, text) = listed(&one);
    let error = |text: &str, survey: &Survey| listing::read(text.as_bytes(), survey).unwrap_err();
    let head = "line 1: 'refused 9' is not 'box X Y Z points P cells C'";
    assert_eq!(error("refused 9\n", &one), head);
    let other = survey("other", &encode([5, 4, 4], &[[1, 2, 3]]));
    assert_eq!(error(&text, &other), "line 1: the box of other is 5 4 4");
    let more = survey("more", &encode([4; 3], &[[1, 2, 3], [2, 2, 2]]));
    assert_eq!(
        error(&text, &more),
        "line 1: 9 points, and with more there are 10"
    );
    let cut: Vec<&str> = text.lines().take(12).collect();
    assert_eq!(error(&cut.join("\n"), &one), "ends after 11 of 12 cells");
    let many = "box 4 4 4 points 9 cells 4097\n";
    assert_eq!(
        error(many, &one),
        "line 1: at most 1,024 points and 4,096 cells"
    );
    let outside = survey("outside", &encode([4; 3], &[[5, 0, 0]]));
    assert_eq!(
        error(&text, &outside),
        "a node of outside lies outside the box"
    );
    // A blank last line is none.
    assert!(listing::read(format!("{text}\n").as_bytes(), &one).is_ok());
}

#[test]
fn wrong_lines_of_a_listing() {
    let one = survey("one", &encode([4; 3], &[[1, 2, 3]]));
    let (_, text) = listed(&one);
    let line = |change: &str| {
        let third = text.lines().nth(3).unwrap();
        let text = text.replacen(&format!("\n{third}\n"), &format!("\n{change}\n"), 1);
        listing::read(text.as_bytes(), &one).unwrap_err()
    };
    let no_cell =
        |line: &str| format!("line 4: '{line}' is no cell: a number, corners, neighbours");
    for wrong in [
        "x 8 3 2 7 - 1 2 3",
        "8 8 3 2 7 - 1 2",
        "8 8 3 2 7 - 1 2 3 4",
        "8 8 3 2 - - 1 2 3",
        "8 8 3 2 7 - 1 2 x",
        "",
    ] {
        assert_eq!(line(wrong), no_cell(wrong));
    }
    assert_eq!(
        line("8 8 3 9 7 - 1 2 3"),
        "line 4: point 9, and numbers are below 9"
    );
    for wrong in ["4096 8 3 2 7 - 1 2 3", "8 8 3 2 7 - 1 4096 3"] {
        let fault = "line 4: cell 4096, and numbers are below 4,096";
        assert_eq!(line(wrong), fault);
    }
    // The lines above and below are those of cells 7 and 9.
    for number in [6, 7] {
        let fault = format!("line 4: cell {number} after cell 7: numbers rise");
        assert_eq!(line(&format!("{number} 8 3 2 7 - 1 2 3")), fault);
    }
    let fault = "line 5: cell 9 after cell 9: numbers rise";
    assert_eq!(line("9 8 3 2 7 - 1 2 3"), fault);
    let end = |end: &str| listing::read(format!("{text}{end}\n").as_bytes(), &one).unwrap_err();
    for wrong in ["more", "stopped 0", "stopped 0 x"] {
        assert_eq!(
            end(wrong),
            format!("line 14: '{wrong}' where the cells have ended")
        );
    }
    assert_eq!(
        end("stopped 0 5\nstopped 0 5"),
        "line 14: 'stopped 0 5' where the cells have ended"
    );
    assert_eq!(
        end("stopped 1 5"),
        "line 14: stopped at place 1, and one has 1 node"
    );
}

/// What is said of a grid, a line a condition that fails.
fn failing(grid: &Grid) -> Vec<String> {
    let faults = conditions(grid)
        .into_iter()
        .filter_map(|(_, outcome)| outcome.err());
    faults.collect()
}

fn started(nodes: &[Position]) -> Grid {
    let mut mesh = Mesh::start(4, 4, 4).unwrap();
    mesh.insert_list(nodes).unwrap();
    Grid::from(&mesh)
}

#[test]
fn each_condition_is_told() {
    let mut grid = started(&[[1, 2, 3]]);
    assert!(failing(&grid).is_empty() && is_mesh(&grid));
    grid.cells[0].corners.swap(0, 1);
    grid.cells[0].neighbours.swap(0, 1);
    assert_eq!(failing(&grid)[0], "cell 6 has the six-fold volume -48");
    assert!(!is_mesh(&grid));

    let mut grid = started(&[]);
    grid.points.push([1, 1, 1]);
    assert_eq!(failing(&grid), ["point 8 is not"]);
    assert!(!is_mesh(&grid));

    let mut grid = started(&[]);
    grid.cells[2].neighbours[1] = None;
    let wall = "cell 2 face 1: no neighbour, and its corners are not on one wall";
    assert_eq!(failing(&grid), [wall]);
    grid.cells[2].neighbours[1] = Some(0);
    let other = "cell 2 face 1: cell 0 has no face with the same points";
    assert_eq!(failing(&grid), [other]);
    grid.cells[2].neighbours[1] = Some(6);
    assert_eq!(failing(&grid), ["cell 2 face 1: there is no cell 6"]);
    grid.cells[2].neighbours = [None, Some(3), Some(0), None];
    let back = "cell 1 face 1: cell 2 does not name it back";
    assert_eq!(failing(&grid), [back]);

    let mut grid = started(&[]);
    grid.cells.pop();
    for cell in &mut grid.cells {
        cell.neighbours = cell.neighbours.map(|across| across.filter(|&n| n < 5));
    }
    let sum = "six-fold 320, and 6 × 4 × 4 × 4 = 384";
    assert_eq!(failing(&grid).last().map(String::as_str), Some(sum));
}

/// Other numbers for the cells, in the same order.
fn renumber(grid: &mut Grid, number: impl Fn(usize) -> usize) {
    for cell in &mut grid.cells {
        cell.number = number(cell.number);
        cell.neighbours = cell.neighbours.map(|across| across.map(&number));
    }
}

/// Numbers that no cell has make no difference, wherever they are.
#[test]
fn gaps_between_the_numbers() {
    let built = started(&[[1, 2, 3], [2, 2, 0]]);
    let numbers: Vec<usize> = built.cells.iter().map(|cell| cell.number).collect();
    assert_ne!(numbers, Vec::from_iter(0..16));
    let place = |number: usize| numbers.binary_search(&number).unwrap();
    for shift in [0, 1, 200] {
        let mut grid = started(&[[1, 2, 3], [2, 2, 0]]);
        renumber(&mut grid, |number| shift * place(number) + number);
        assert!(is_mesh(&grid) && failing(&grid).is_empty());
        assert!(grid.has_cells_of(&built));
        assert_eq!(grid == built, shift == 0);
    }
    assert!(!started(&[[1, 2, 3]]).has_cells_of(&built));
}

/// One entry wrong, or two swapped.
fn damage(grid: &mut Grid, random: &mut Random) {
    let (points, cells) = (grid.points.len(), grid.cells.len());
    let used = grid.cells[cells - 1].number + 1;
    let cell: &mut Cell = &mut grid.cells[random.index(cells)];
    let (i, j) = (random.index(4), random.index(4));
    match random.below(5) {
        0 => cell.corners[i] = random.index(points),
        // A cell, a number that is free, or one past the last.
        1 => cell.neighbours[i] = Some(random.index(used + 1)),
        2 => cell.neighbours[i] = None,
        3 => cell.corners.swap(i, j),
        _ => cell.neighbours.swap(i, j),
    }
}

#[test]
fn what_is_told_agrees_with_the_mesh_check() {
    let mut random = Random::new(15);
    let mut meshes = 0;
    for _ in 0..3_000 {
        let mut mesh = Mesh::start(4, 4, 4).unwrap();
        for _ in 0..random.below(6) {
            let _ = mesh.insert([0; 3].map(|_| random.below(5) as u32));
        }
        let mut grid = Grid::from(&mesh);
        for _ in 0..random.below(3) {
            damage(&mut grid, &mut random);
        }
        let verdict = is_mesh(&grid);
        assert_eq!(failing(&grid).is_empty(), verdict, "{grid:?}");
        meshes += usize::from(verdict);
    }
    assert!((500..2_500).contains(&meshes), "{meshes} of 3000");
}
