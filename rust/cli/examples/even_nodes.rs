//! Evenly spaced nodes in a plate, before and after ties were settled, as a picture: `even_nodes > docs/even.svg`.
//!
//! Up to version 0.4 an insertion went by the sign of the float sum T. Handing in these signs as answers makes the mesh that it
//! made.

use gantry::{sphere_test, volume6, Cell, Mesh, Position, Refusal};

const SIDES: Position = [115_000, 95_000, 10_000];
/// Both pictures are a section here, half way between the two middle columns of nodes.
const SECTION: f64 = 57_500.0;
/// Steps a picture's pixel.
const SCALE: f64 = 125.0;
/// Cells that are thinner than this are drawn in red.
pub const THIN: f64 = 0.05;

/// Four columns and two rows at steps of 15,000, on the lower face and then on the upper one.
pub fn nodes() -> Vec<Position> {
    let mut nodes = vec![];
    for z in [0, SIDES[2]] {
        for y in [40_000, 55_000] {
            nodes.extend([35_000, 50_000, 65_000, 80_000].map(|x| [x, y, z]));
        }
    }
    nodes
}

/// By the signs of the float sums.
pub fn before() -> Result<Mesh, Refusal> {
    let [x, y, z] = SIDES;
    let mut mesh = Mesh::start(x, y, z)?;
    for p in nodes() {
        let mut answers = vec![0; mesh.used()];
        for cell in mesh.cells() {
            let t = sphere_test(corners(&mesh, &cell), p)?.t();
            answers[cell.number] = u8::from(t > 0.0);
        }
        mesh.insert_answers(&answers, p)?;
    }
    Ok(mesh)
}

/// By the sphere test.
pub fn after() -> Result<Mesh, Refusal> {
    let [x, y, z] = SIDES;
    let mut mesh = Mesh::start(x, y, z)?;
    for p in nodes() {
        mesh.insert(p)?;
    }
    Ok(mesh)
}

fn corners(mesh: &Mesh, cell: &Cell) -> [Position; 4] {
    cell.corners.map(|point| mesh.points()[point])
}

/// A cell's least height, which is the one over its largest face, and its longest edge.
pub struct Shape {
    pub height: f64,
    pub length: f64,
}

impl Shape {
    pub fn thinness(&self) -> f64 {
        self.height / self.length
    }
}

fn minus(a: Position, b: Position) -> [f64; 3] {
    [0, 1, 2].map(|axis| f64::from(a[axis]) - f64::from(b[axis]))
}

fn length([x, y, z]: [f64; 3]) -> f64 {
    (x * x + y * y + z * z).sqrt()
}

/// Twice its area.
fn triangle([a, b, c]: [Position; 3]) -> f64 {
    let ([ux, uy, uz], [vx, vy, vz]) = (minus(b, a), minus(c, a));
    length([uy * vz - uz * vy, uz * vx - ux * vz, ux * vy - uy * vx])
}

fn shape([a, b, c, d]: [Position; 4]) -> Shape {
    let volume = volume6([a, b, c, d].map(|p| p.map(|n| n as i32))).expect("points in the box");
    let faces = [[b, c, d], [a, c, d], [a, b, d], [a, b, c]].map(triangle);
    let edges = [[a, b], [a, c], [a, d], [b, c], [b, d], [c, d]].map(|[p, q]| length(minus(p, q)));
    Shape {
        height: volume as f64 / faces.into_iter().fold(0.0, f64::max),
        length: edges.into_iter().fold(0.0, f64::max),
    }
}

/// The shapes of all cells, the thinnest first.
pub fn shapes(mesh: &Mesh) -> Vec<Shape> {
    let cells = mesh.cells();
    let mut shapes: Vec<Shape> = cells.map(|cell| shape(corners(mesh, &cell))).collect();
    shapes.sort_by(|a, b| a.thinness().total_cmp(&b.thinness()));
    shapes
}

/// Where the section cuts a cell: y and z of the places on its edges, in order round their middle.
fn section(corners: [Position; 4]) -> Vec<[f64; 2]> {
    let at = corners.map(|p| p.map(f64::from));
    let mut cut = vec![];
    for p in at.iter().filter(|p| p[0] < SECTION) {
        for q in at.iter().filter(|q| q[0] > SECTION) {
            let share = (SECTION - p[0]) / (q[0] - p[0]);
            cut.push([1, 2].map(|axis| p[axis] + share * (q[axis] - p[axis])));
        }
    }
    let middle = [0, 1].map(|axis| cut.iter().map(|p| p[axis]).sum::<f64>() / cut.len() as f64);
    let angle = |p: &[f64; 2]| (p[1] - middle[1]).atan2(p[0] - middle[0]);
    cut.sort_by(|p, q| angle(p).total_cmp(&angle(q)));
    cut
}

const MARGIN: f64 = 20.0;
const LINE: f64 = 18.0;
const WORDS: &str = "stroke=\"none\" fill=\"#333333\" font-family=\"sans-serif\" font-size=\"13\"";

/// A line of text, so far down the page.
fn words(down: f64, words: &str) -> String {
    format!("<text x=\"{MARGIN}\" y=\"{down}\" {WORDS}>{words}</text>\n")
}

/// A cell's part of the section, over a floor so far down the page; nothing where it has none.
fn polygon(corners: [Position; 4], floor: f64) -> String {
    let fill = match shape(corners).thinness() < THIN {
        true => "#e05a4a",
        false => "#f4f1ea",
    };
    let places = section(corners).into_iter().map(|[y, z]| {
        let (right, down) = (MARGIN + y / SCALE, floor - z / SCALE);
        format!("{right:.1},{down:.1}")
    });
    match Vec::from_iter(places) {
        places if places.is_empty() => String::new(),
        places => format!(
            "<polygon points=\"{}\" fill=\"{fill}\"/>\n",
            places.join(" ")
        ),
    }
}

/// What is said of the thinnest cell.
fn thinnest(mesh: &Mesh) -> String {
    let Shape { height, length } = shapes(mesh)[0];
    let cells = mesh.cells().len();
    format!("the thinnest of {cells} cells is {height:.0} steps high and {length:.0} long")
}

/// A mesh's section under its title, from so far down the page.
fn panel(title: &str, mesh: &Mesh, top: f64) -> String {
    let floor = top + 1.5 * LINE + f64::from(SIDES[2]) / SCALE;
    let mut text = words(top + LINE, &format!("{title}: {}", thinnest(mesh)));
    for cell in mesh.cells() {
        text += &polygon(corners(mesh, &cell), floor);
    }
    text
}

pub fn picture() -> Result<String, Refusal> {
    let width = 2.0 * MARGIN + f64::from(SIDES[1]) / SCALE;
    let panel_height = 2.0 * LINE + f64::from(SIDES[2]) / SCALE;
    let height = 2.0 * panel_height + 2.0 * LINE;
    let panels = [
        panel("up to 0.4", &before()?, 0.0),
        panel("from 0.5", &after()?, panel_height),
        words(
            2.0 * panel_height + LINE,
            "The section x = 57,500, to scale. Red: cells less than a twentieth as high as long.",
        ),
    ];
    Ok(format!(
        "<svg xmlns=\"http://www.w3.org/2000/svg\" width=\"{width}\" height=\"{height}\" viewBox=\"0 0 {width} {height}\">\n\
         <rect width=\"100%\" height=\"100%\" fill=\"#ffffff\"/>\n\
         <g stroke=\"#555555\" stroke-width=\"0.7\" stroke-linejoin=\"round\">\n\
         {}</g>\n</svg>\n",
        panels.concat()
    ))
}

fn main() -> Result<(), Refusal> {
    print!("{}", picture()?);
    Ok(())
}
