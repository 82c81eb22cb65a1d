//! A grid as a picture: the edges of its cells in an axonometric view, the near ones over the far ones, with the numbers of
//! points and cells where there are few. With a look, the cells that its node would replace stand out, with a drive, those on it;
//! with corrections, points have arrows.

mod arrows;
mod emphasis;

use std::fmt::Write;

use gantry::{Cell, Correction, Position};

use crate::counted;
use crate::grid::{edges, Grid};
use crate::labels::{Page, Point2, Rectangle};
use arrows::{arrows, Arrow};
pub use emphasis::Emphasis;

/// Pixels of the picture's longer side, without the margin, for few points.
const SIZE: f64 = 440.0;
const MARGIN: f64 = 30.0;
/// A line of the caption, and the width of a character in it.
const LINE: f64 = 16.0;
const CHARACTER: f64 = 6.6;
const FONT: f64 = 12.0;
/// How much of an edge has no border at either end.
const OPEN_END: f64 = 14.0;
/// A label farther away than this is joined to what it names.
const LEADER: f64 = 16.0;
/// The longest side is drawn at most so many times as long as another.
const SLENDER: f64 = 4.0;
/// How much paler the other edges and points are where some cells stand out.
const PALENESS: f64 = 0.4;
const PALE_DOT: &str = " fill-opacity=\"0.6\"";
/// Points and cells are numbered where there are at most so many.
pub const NUMBERED_POINTS: usize = 64;
pub const NUMBERED_CELLS: usize = 24;
/// The cells that stand out, which lie close together.
pub const NUMBERED_EMPHASIS: usize = 12;

const BOX_COLOUR: &str = "#102a57";
const NODE_COLOUR: &str = "#b4410f";
const CELL_COLOUR: &str = "#1e6e46";
const QUIET_COLOUR: &str = "#5b6675";

type Vector = [f64; 3];

/// Towards the eye; then the picture's right and up, all at right angles and of length 1.
const EYE: Vector = [0.464_18, -0.779_06, 0.421_49];
const RIGHT: Vector = [0.859_07, 0.511_85, 0.0];
const UP: Vector = [-0.215_74, 0.362_09, 0.906_84];

fn dot(a: Vector, b: Vector) -> f64 {
    a[0] * b[0] + a[1] * b[1] + a[2] * b[2]
}

/// A place on the page, and how near it is.
#[derive(Clone, Copy)]
struct Seen {
    at: Point2,
    near: f64,
}

/// By how much each axis is stretched, so that the cells of a long box can be told apart.
fn stretch(sides: Position) -> Vector {
    let longest = f64::from(sides.into_iter().max().unwrap_or(1));
    sides.map(|side| (longest / (SLENDER * f64::from(side))).max(1.0))
}

fn seen(p: Position, stretch: Vector) -> Seen {
    let p = [0, 1, 2].map(|axis| f64::from(p[axis]) * stretch[axis]);
    let at = Point2 {
        x: dot(p, RIGHT),
        y: -dot(p, UP),
    };
    Seen {
        at,
        near: dot(p, EYE),
    }
}

fn middle(points: &[Seen]) -> Seen {
    let mean = |of: fn(&Seen) -> f64| points.iter().map(of).sum::<f64>() / points.len() as f64;
    let at = Point2 {
        x: mean(|p| p.at.x),
        y: mean(|p| p.at.y),
    };
    Seen {
        at,
        near: mean(|p| p.near),
    }
}

/// The least and greatest of some numbers.
fn range(numbers: impl Iterator<Item = f64> + Clone) -> (f64, f64) {
    let least = numbers.clone().fold(f64::INFINITY, f64::min);
    (least, numbers.fold(f64::NEG_INFINITY, f64::max))
}

struct View {
    points: Vec<Seen>,
    width: f64,
    height: f64,
}

impl View {
    fn places<const COUNT: usize>(&self, points: [usize; COUNT]) -> [Point2; COUNT] {
        points.map(|point| self.points[point].at)
    }

    fn middle<const COUNT: usize>(&self, points: [usize; COUNT]) -> Seen {
        middle(&points.map(|point| self.points[point]))
    }

    fn nearness<const COUNT: usize>(&self, points: [usize; COUNT]) -> f64 {
        self.middle(points).near
    }
}

/// The points moved and scaled to the page, nearness to 0 for the farthest and 1 for the nearest.
fn view(points: &[Position], stretch: Vector) -> View {
    let seen: Vec<Seen> = points.iter().map(|&p| seen(p, stretch)).collect();
    let (left, right) = range(seen.iter().map(|p| p.at.x));
    let (top, bottom) = range(seen.iter().map(|p| p.at.y));
    let (far, near) = range(seen.iter().map(|p| p.near));
    let size = SIZE * (points.len() as f64 / 16.0).sqrt().clamp(1.0, 2.5);
    let scale = size / (right - left).max(bottom - top);
    let placed = |p: &Seen| Seen {
        at: Point2 {
            x: MARGIN + (p.at.x - left) * scale,
            y: MARGIN + (p.at.y - top) * scale,
        },
        near: (p.near - far) / (near - far),
    };
    View {
        points: seen.iter().map(placed).collect(),
        width: 2.0 * MARGIN + (right - left) * scale,
        height: 2.0 * MARGIN + (bottom - top) * scale,
    }
}

/// A part of the way from one to the other.
fn between(from: Point2, to: Point2, part: f64) -> Point2 {
    Point2 {
        x: from.x + part * (to.x - from.x),
        y: from.y + part * (to.y - from.y),
    }
}

type Colour = [f64; 3];

const FAR: Colour = [198.0, 210.0, 222.0];
const NEAR: Colour = [16.0, 42.0, 87.0];
const WHITE: Colour = [255.0; 3];

/// A part of the way from one colour to the other.
fn mixed(from: Colour, to: Colour, part: f64) -> Colour {
    [0, 1, 2].map(|k| from[k] + (to[k] - from[k]) * part)
}

fn written(colour: Colour) -> String {
    let [red, green, blue] = colour.map(|shade| shade.round() as u8);
    format!("#{red:02x}{green:02x}{blue:02x}")
}

/// Does a line between the two run along an edge of the box?
fn is_on_box_edge(sides: Position, [p, q]: [Position; 2]) -> bool {
    let on_wall = |&axis: &usize| p[axis] == q[axis] && [0, sides[axis]].contains(&p[axis]);
    (0..3).filter(on_wall).count() >= 2
}

struct Picture<'a> {
    grid: &'a Grid,
    emphasis: Option<Emphasis<'a>>,
    /// The points, and then the positions of what stands out: the node of a look, or the ends of a drive.
    view: View,
    /// The far ones first.
    edges: Vec<[usize; 2]>,
    /// Of corrections.
    arrows: Vec<Arrow>,
    text: String,
    /// Labels that there was no place for.
    left_out: usize,
}

impl<'a> Picture<'a> {
    fn new(
        grid: &'a Grid,
        emphasis: Option<Emphasis<'a>>,
        corrections: &[Correction],
    ) -> Picture<'a> {
        let more = emphasis.map(Emphasis::positions).unwrap_or_default();
        let points: Vec<Position> = grid.points.iter().copied().chain(more).collect();
        let view = view(&points, stretch(grid.sides));
        let mut edges = Vec::from_iter(edges(grid.cells.iter().copied()));
        edges.sort_by(|&a, &b| view.nearness(a).total_cmp(&view.nearness(b)));
        Picture {
            grid,
            emphasis,
            view,
            edges,
            arrows: arrows(corrections, grid.sides),
            text: String::new(),
            left_out: 0,
        }
    }

    fn line(&mut self, ends: [Point2; 2], stroke: &str, width: f64) {
        self.line_with(ends, stroke, width, "");
    }

    /// With a further attribute.
    fn line_with(&mut self, [a, b]: [Point2; 2], stroke: &str, width: f64, more: &str) {
        let _ = writeln!(
            self.text,
            "<line x1=\"{:.1}\" y1=\"{:.1}\" x2=\"{:.1}\" y2=\"{:.1}\" stroke=\"{stroke}\" stroke-width=\"{width:.2}\"{more}/>",
            a.x, a.y, b.x, b.y
        );
    }

    /// Of a line, so that what is nearer is seen to pass over; not at the ends, where other edges end too.
    fn border(&mut self, [a, b]: [Point2; 2], stroke: &str, width: f64) {
        let length = (a.x - b.x).hypot(a.y - b.y);
        if length > 2.0 * OPEN_END {
            let part = OPEN_END / length;
            self.line([between(a, b, part), between(b, a, part)], stroke, width);
        }
    }

    fn draw_edge(&mut self, edge: [usize; 2]) {
        let is_of_box = is_on_box_edge(self.grid.sides, edge.map(|point| self.grid.points[point]));
        let near = self.view.nearness(edge);
        let width = if is_of_box { 2.2 } else { 0.7 + 0.8 * near };
        let ends = self.view.places(edge);
        let paleness = self.emphasis.map_or(0.0, |_| PALENESS);
        let stroke = mixed(mixed(FAR, NEAR, near), WHITE, paleness);
        self.border(ends, "#ffffff", width + 3.0);
        self.line(ends, &written(stroke), width);
    }

    fn draw_edges(&mut self, edges: &[[usize; 2]]) {
        for &edge in edges {
            self.draw_edge(edge);
        }
    }

    fn point_colour(&self, point: usize) -> &'static str {
        match point {
            0..8 => BOX_COLOUR,
            _ if point < self.grid.points.len() => NODE_COLOUR,
            _ => emphasis::RING_COLOUR,
        }
    }

    fn radius(&self, point: usize) -> f64 {
        match point < self.grid.points.len() {
            true => 2.0 + 1.5 * self.view.points[point].near,
            false => emphasis::RING,
        }
    }

    fn draw_point(&mut self, point: usize) {
        let (at, fill) = (self.view.points[point].at, self.point_colour(point));
        let is_pale = self.emphasis.is_some_and(|e| !e.has_corner(point));
        let more = if is_pale { PALE_DOT } else { "" };
        let _ = writeln!(
            self.text,
            "<circle cx=\"{:.1}\" cy=\"{:.1}\" r=\"{:.1}\" fill=\"{fill}\"{more}/>",
            at.x,
            at.y,
            self.radius(point)
        );
    }

    /// A label at least `clear` away from what it names; it is left out where there is no place for it.
    fn label(&mut self, page: &mut Page, words: &str, fill: &str, anchor: Point2, clear: f64) {
        let Some(centre) = page.place(words, FONT, anchor, clear) else {
            self.left_out += 1;
            return;
        };
        if (centre.x - anchor.x).hypot(centre.y - anchor.y) > LEADER {
            self.line([anchor, between(centre, anchor, 0.3)], fill, 0.5);
        }
        let _ = writeln!(
            self.text,
            "<text x=\"{:.1}\" y=\"{:.1}\" fill=\"{fill}\" stroke=\"#ffffff\" stroke-width=\"3\" paint-order=\"stroke\">{words}</text>",
            centre.x,
            centre.y + 0.36 * FONT
        );
    }

    fn page(&self) -> Page {
        let View {
            points,
            width,
            height,
        } = &self.view;
        let edge = Rectangle {
            left: 2.0,
            right: width - 2.0,
            top: 2.0,
            bottom: height - 2.0,
        };
        let dot = |point: usize| {
            let half = self.radius(point) + 1.0;
            Rectangle::round(points[point].at, half, half)
        };
        let lines = self.edges.iter().map(|&edge| self.view.places(edge));
        let arrows = self.arrows.iter().map(|arrow| self.arrow_line(arrow));
        Page::new(
            edge,
            (0..points.len()).map(dot).collect(),
            lines.chain(arrows).chain(self.drive_line()).collect(),
        )
    }

    /// All points; where they are too many, the corners of the cells that stand out.
    fn numbered_points(&self) -> Option<Vec<usize>> {
        let points = self.grid.points.len();
        let numbered: Vec<usize> = match self.emphasis {
            Some(e) if points > NUMBERED_POINTS => {
                (0..points).filter(|&point| e.has_corner(point)).collect()
            }
            _ => (0..points).collect(),
        };
        Some(numbered).filter(|points| points.len() <= NUMBERED_POINTS)
    }

    /// All cells, or those that stand out.
    fn numbered_cells(&self) -> Option<&'a [Cell]> {
        let (cells, limit): (&[Cell], usize) = match self.emphasis {
            Some(emphasis) => (emphasis.cells(), NUMBERED_EMPHASIS),
            None => (&self.grid.cells, NUMBERED_CELLS),
        };
        Some(cells).filter(|cells| cells.len() <= limit)
    }

    fn draw_labels(&mut self) {
        let mut page = self.page();
        // The node of a look or the ends of a drive first, so that they have the best places.
        let rings = self.emphasis.map(Emphasis::labels).unwrap_or_default();
        let rings = (self.grid.points.len()..).zip(rings);
        let points = self.numbered_points().unwrap_or_default();
        let points = points.into_iter().map(|point| (point, point.to_string()));
        for (point, words) in rings.chain(points) {
            let (at, fill) = (self.view.points[point].at, self.point_colour(point));
            let clear = self.radius(point) + 0.7 * FONT;
            self.label(&mut page, &words, fill, at, clear);
        }
        for cell in self.numbered_cells().unwrap_or_default() {
            let (words, anchor) = (cell.number.to_string(), self.view.middle(cell.corners).at);
            self.label(&mut page, &words, CELL_COLOUR, anchor, 0.0);
        }
        // The axes run from point 0 to points 1, 2 and 4.
        for (axis, end) in [("x", 1), ("y", 2), ("z", 4)] {
            let [from, to] = self.view.places([0, end]);
            // Off the middle, where a node of a lattice may be.
            let anchor = between(from, to, 0.3);
            self.label(&mut page, axis, QUIET_COLOUR, anchor, 0.9 * FONT);
        }
    }

    /// The counts, the lines `more`, the colours.
    fn caption(&self, more: &[String]) -> Vec<String> {
        let mut lines = vec![self.grid.summary()];
        lines.extend_from_slice(more);
        lines.extend(self.emphasis.map(|e| e.colours().to_string()));
        lines.push(self.colours());
        if self.left_out > 0 {
            lines.push(format!(
                "{} left out for want of room",
                counted(self.left_out, "label")
            ));
        }
        lines
    }

    fn colours(&self) -> String {
        let mut words = "blue: box corners, brown: nodes".to_string();
        if let Some(emphasis) = self.emphasis {
            words = words + ", " + emphasis.rings();
        }
        if self.numbered_cells().is_some() {
            words += ", green: cells";
        }
        if stretch(self.grid.sides) != [1.0; 3] {
            words += "; short sides are drawn longer";
        }
        words
    }

    fn draw_caption(&mut self, lines: &[String]) {
        for (row, words) in lines.iter().enumerate() {
            let y = self.view.height + LINE * (row as f64 + 0.5);
            let words = escaped(words);
            let _ = writeln!(
                self.text,
                "<text x=\"{MARGIN}\" y=\"{y:.1}\" fill=\"{QUIET_COLOUR}\" text-anchor=\"start\">{words}</text>"
            );
        }
    }
}

fn escaped(words: &str) -> String {
    let words: String = words.chars().filter(|c| !c.is_control()).collect();
    words
        .replace('&', "&amp;")
        .replace('<', "&lt;")
        .replace('>', "&gt;")
}

impl Grid {
    /// With a caption that has the lines `more`, and arrows for the points' corrections that are not 0.
    pub fn to_svg(
        &self,
        more: &[String],
        emphasis: Option<Emphasis>,
        corrections: &[Correction],
    ) -> String {
        let mut picture = Picture::new(self, emphasis, corrections);
        let edges = picture.edges.clone();
        match emphasis {
            None => picture.draw_edges(&edges),
            Some(emphasis) => picture.draw_edges_and_emphasis(&edges, emphasis),
        }
        picture.draw_drive();
        for point in 0..self.points.len() {
            picture.draw_point(point);
        }
        for arrow in picture.arrows.clone() {
            picture.draw_arrow(&arrow);
        }
        picture.draw_labels();
        picture.draw_rings();
        let corrected = arrows::summary(corrections);
        let more: Vec<String> = more.iter().cloned().chain(corrected).collect();
        let caption = picture.caption(&more);
        picture.draw_caption(&caption);
        let longest = caption
            .iter()
            .map(|line| line.chars().count())
            .max()
            .unwrap_or(0);
        let width = (2.0 * MARGIN + CHARACTER * longest as f64).max(picture.view.width);
        let height = picture.view.height + LINE * caption.len() as f64 + 0.5 * LINE;
        format!(
            "<svg xmlns=\"http://www.w3.org/2000/svg\" width=\"{width:.0}\" height=\"{height:.0}\" viewBox=\"0 0 {width:.1} {height:.1}\">\n\
             <rect width=\"100%\" height=\"100%\" fill=\"#ffffff\"/>\n\
             <g stroke-linecap=\"round\" font-family=\"sans-serif\" font-size=\"{FONT}\" text-anchor=\"middle\">\n\
             {}</g>\n</svg>\n",
            picture.text
        )
    }
}
