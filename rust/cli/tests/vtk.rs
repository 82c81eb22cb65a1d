use gantry::Mesh;
use gantry_cli::grid::Grid;

const STARTED: &str = "\
# vtk DataFile Version 3.0
a started box
ASCII
DATASET UNSTRUCTURED_GRID
POINTS 8 double
0 0 0
4 0 0
0 4 0
4 4 0
0 0 2
4 0 2
0 4 2
4 4 2
CELLS 6 30
4 0 1 3 7
4 0 3 2 7
4 0 2 6 7
4 0 6 4 7
4 0 4 5 7
4 0 5 1 7
CELL_TYPES 6
10
10
10
10
10
10
CELL_DATA 6
SCALARS cell int 1
LOOKUP_TABLE default
0
1
2
3
4
5
SCALARS volume6 double 1
LOOKUP_TABLE default
32
32
32
32
32
32
SCALARS volume double 1
LOOKUP_TABLE default
5.333333333333333
5.333333333333333
5.333333333333333
5.333333333333333
5.333333333333333
5.333333333333333
POINT_DATA 8
SCALARS point int 1
LOOKUP_TABLE default
0
1
2
3
4
5
6
7
";

#[test]
fn a_started_box() {
    let mesh = Mesh::start(4, 4, 2).unwrap();
    assert_eq!(Grid::from(&mesh).to_vtk("a started\n box", None), STARTED);
}

#[test]
fn a_long_title_is_cut() {
    let mesh = Mesh::start(4, 4, 4).unwrap();
    let text = Grid::from(&mesh).to_vtk(&"t".repeat(400), None);
    assert_eq!(text.lines().nth(1).map(str::len), Some(255));
}

#[test]
fn a_look_is_a_scalar_of_the_cells() {
    let mut mesh = Mesh::start(4, 4, 4).unwrap();
    mesh.insert_list(&[[1, 2, 3], [2, 2, 0]]).unwrap();
    let look = mesh.look([0, 2, 2]).unwrap();
    let grid = Grid::from(&mesh);
    // A line for each cell, and none for a freed number.
    assert!(mesh.used() > grid.cells.len());
    let numbers = grid.cells.iter().map(|cell| format!("{}\n", cell.number));
    let without = grid.to_vtk("a title", None);
    let table =
        |name: &str, lines: String| format!("SCALARS {name} int 1\nLOOKUP_TABLE default\n{lines}");
    assert!(without.contains(&table("cell", numbers.collect())));
    let marks = grid.cells.iter().map(|cell| {
        if [1, 11, 13].contains(&cell.number) {
            "1\n"
        } else {
            "0\n"
        }
    });
    let scalars = table("replaced", marks.collect());
    let expected = without.replace("POINT_DATA", &format!("{scalars}POINT_DATA"));
    assert_eq!(grid.to_vtk("a title", Some(&look)), expected);
}
