//! The corrections of points as arrows: all at one scale, the longest as long as fits in the margin.

use std::fmt::Write;

use gantry::Correction;

use super::{dot, stretch, Picture, Point2, Vector, RIGHT, UP};

/// In the caption.
pub const COLOURS: &str = "red: corrections";
pub const COLOUR: &str = "#c2185b";

/// Pixels of the longest, and of a head's two strokes, which a short arrow has shorter.
const LONGEST: f64 = 26.0;
const HEAD: f64 = 6.0;
/// What is shorter has no direction that could be seen.
const SHORTEST: f64 = 0.5;

/// From a point's place on the page.
#[derive(Clone, Copy)]
pub struct Arrow {
    pub point: usize,
    pub by: Point2,
}

impl Arrow {
    fn length(&self) -> f64 {
        self.by.x.hypot(self.by.y)
    }
}

/// As the axes are seen and stretched, before any scale.
fn seen(numbers: Correction, stretch: Vector) -> Point2 {
    let vector = [0, 1, 2].map(|axis| f64::from(numbers[axis]) * stretch[axis]);
    Point2 {
        x: dot(vector, RIGHT),
        y: -dot(vector, UP),
    }
}

/// Of the points whose correction is not 0.
pub fn arrows(corrections: &[Correction], sides: gantry::Position) -> Vec<Arrow> {
    let arrow = |(point, &numbers): (usize, &Correction)| Arrow {
        point,
        by: seen(numbers, stretch(sides)),
    };
    let mut arrows: Vec<Arrow> = corrections.iter().enumerate().map(arrow).collect();
    arrows.retain(|arrow| corrections[arrow.point] != [0; 3]);
    let longest = arrows.iter().map(Arrow::length).fold(SHORTEST, f64::max);
    for arrow in &mut arrows {
        arrow.by.x *= LONGEST / longest;
        arrow.by.y *= LONGEST / longest;
    }
    arrows
}

/// `the longest of 3 is -12 7 3, of point 8`, by its steps, the first of equal ones.
pub fn summary(corrections: &[Correction]) -> Option<String> {
    let size = |numbers: &Correction| -> i64 { numbers.iter().map(|&n| i64::from(n).pow(2)).sum() };
    let points = || corrections.iter().enumerate().rev();
    let (point, [x, y, z]) = points().max_by_key(|(_, numbers)| size(numbers))?;
    let count = points().filter(|(_, numbers)| size(numbers) > 0).count();
    (count > 0)
        .then(|| format!("{COLOURS}, the longest of {count} is {x} {y} {z}, of point {point}"))
}

impl Picture<'_> {
    pub(super) fn arrow_line(&self, arrow: &Arrow) -> [Point2; 2] {
        let [from] = self.view.places([arrow.point]);
        let to = Point2 {
            x: from.x + arrow.by.x,
            y: from.y + arrow.by.y,
        };
        [from, to]
    }

    pub(super) fn draw_arrow(&mut self, arrow: &Arrow) {
        let ([a, b], length) = (self.arrow_line(arrow), arrow.length());
        let mut path = format!("M{:.1} {:.1}L{:.1} {:.1}", a.x, a.y, b.x, b.y);
        if length > SHORTEST {
            let head = HEAD.min(0.5 * length) / length;
            let (back, aside) = ([arrow.by.x, arrow.by.y], [-arrow.by.y, arrow.by.x]);
            let end = |side: f64| {
                let at = |axis: usize| head * (side * 0.6 * aside[axis] - back[axis]);
                Point2 {
                    x: b.x + at(0),
                    y: b.y + at(1),
                }
            };
            let [l, r] = [end(1.0), end(-1.0)];
            let _ = write!(
                path,
                "M{:.1} {:.1}L{:.1} {:.1}L{:.1} {:.1}",
                l.x, l.y, b.x, b.y, r.x, r.y
            );
        }
        let _ = writeln!(
            self.text,
            "<path d=\"{path}\" fill=\"none\" stroke=\"{COLOUR}\" stroke-width=\"2\"/>"
        );
    }
}
