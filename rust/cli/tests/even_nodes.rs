//! README's picture of evenly spaced nodes, and what is said of it there.

#[allow(dead_code)]
#[path = "../examples/even_nodes.rs"]
mod even_nodes;

use even_nodes::{after, before, nodes, picture, shapes, Shape, THIN};
use gantry::{sphere_test, Mesh, SphereAnswer};
use gantry_cli::grouped;

/// README, without its line ends.
fn readme() -> String {
    let words = include_str!("../../../README.md").split_whitespace();
    Vec::from_iter(words).join(" ")
}

#[test]
fn the_picture_is_the_example_s() {
    // Not assert_eq, which would print both.
    assert!(picture().unwrap() == include_str!("../../../docs/even.svg"));
}

#[test]
fn readme_has_its_figures() {
    let thin = |shapes: &[Shape]| {
        let is_thin = |shape: &&Shape| shape.thinness() < THIN;
        shapes.iter().filter(is_thin).count()
    };
    let [before, after] = [before(), after()].map(|mesh| shapes(&mesh.unwrap()));
    assert_eq!((nodes().len(), before.len(), after.len()), (16, 54, 54));
    assert_eq!((thin(&before), thin(&after)), (4, 0));
    let size = |shape: &Shape| {
        let [height, length] = [shape.height, shape.length].map(|n| grouped(n.round() as usize));
        format!("{height} steps high and {length} long")
    };
    let said = format!(
        "four of the 54 cells were less than a twentieth as high as long, the thinnest {}; now none is, and the thinnest is {}.",
        size(&before[0]),
        size(&after[0])
    );
    assert!(readme().contains(&said), "{said}");
}

fn has_empty_spheres(mesh: &Mesh) -> bool {
    mesh.cells().all(|cell| {
        let corners = mesh.corner_positions(cell.number).unwrap();
        let is_inside = |&p| matches!(sphere_test(corners, p), Ok(SphereAnswer::Inside(_)));
        !mesh.points().iter().any(is_inside)
    })
}

/// So empty spheres do not by themselves exclude thin cells.
#[test]
fn both_meshes_have_empty_spheres() {
    assert!(has_empty_spheres(&before().unwrap()));
    assert!(has_empty_spheres(&after().unwrap()));
    assert!(readme().contains("in the picture it holds of the mesh before too"));
}
