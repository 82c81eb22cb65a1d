//! Places for the labels of a picture: no label over another or over a dot, few over lines, each near what it names.

/// A place on the page.
#[derive(Clone, Copy, Debug, PartialEq)]
pub struct Point2 {
    pub x: f64,
    pub y: f64,
}

#[derive(Clone, Copy, Debug, PartialEq)]
pub struct Rectangle {
    pub left: f64,
    pub right: f64,
    pub top: f64,
    pub bottom: f64,
}

impl Rectangle {
    pub fn round(centre: Point2, half_width: f64, half_height: f64) -> Rectangle {
        Rectangle {
            left: centre.x - half_width,
            right: centre.x + half_width,
            top: centre.y - half_height,
            bottom: centre.y + half_height,
        }
    }

    pub fn overlaps(&self, other: &Rectangle) -> bool {
        self.left < other.right
            && other.left < self.right
            && self.top < other.bottom
            && other.top < self.bottom
    }

    fn contains(&self, other: &Rectangle) -> bool {
        self.left <= other.left
            && other.right <= self.right
            && self.top <= other.top
            && other.bottom <= self.bottom
    }

    /// Does the line from a to b pass through? By the part of it that is between left and right, then top and bottom.
    fn is_crossed(&self, [a, b]: [Point2; 2]) -> bool {
        let (mut from, mut to) = (0.0_f64, 1.0_f64);
        for (start, end, low, high) in [
            (a.x, b.x, self.left, self.right),
            (a.y, b.y, self.top, self.bottom),
        ] {
            let length = end - start;
            if length == 0.0 {
                if start < low || high < start {
                    return false;
                }
            } else {
                let (enter, leave) = ((low - start) / length, (high - start) / length);
                from = from.max(enter.min(leave));
                to = to.min(enter.max(leave));
            }
        }
        from < to
    }
}

/// How wide a digit is, and how high, at font size 1.
const DIGIT: [f64; 2] = [0.58, 0.74];
/// Kept free beside a label, and above and below.
const GAP: [f64; 2] = [4.0, 1.5];
const RINGS: usize = 12;
const RING: f64 = 5.0;
const DIRECTIONS: usize = 16;

/// The page with what stands on it so far.
pub struct Page {
    edge: Rectangle,
    taken: Vec<Rectangle>,
    lines: Vec<[Point2; 2]>,
}

impl Page {
    pub fn new(edge: Rectangle, dots: Vec<Rectangle>, lines: Vec<[Point2; 2]>) -> Page {
        Page {
            edge,
            taken: dots,
            lines,
        }
    }

    /// A label's centre, at least `clear` away from its anchor; nothing where there is no place nearby.
    pub fn place(&mut self, text: &str, font: f64, anchor: Point2, clear: f64) -> Option<Point2> {
        let half_width = 0.5 * DIGIT[0] * font * text.chars().count() as f64 + GAP[0];
        let half_height = 0.5 * DIGIT[1] * font + GAP[1];
        let mut best: Option<(f64, Point2, Rectangle)> = None;
        for (centre, distance) in places(anchor, clear) {
            let label = Rectangle::round(centre, half_width, half_height);
            if !self.edge.contains(&label) || self.taken.iter().any(|taken| taken.overlaps(&label))
            {
                continue;
            }
            let crossed = self
                .lines
                .iter()
                .filter(|&&line| label.is_crossed(line))
                .count();
            let cost = distance / RING + 1.5 * crossed as f64;
            if best.is_none_or(|(least, ..)| cost < least) {
                best = Some((cost, centre, label));
            }
        }
        let (_, centre, label) = best?;
        self.taken.push(label);
        Some(centre)
    }
}

/// The anchor itself where it need not be clear, then places in rings round it, each with its distance.
fn places(anchor: Point2, clear: f64) -> impl Iterator<Item = (Point2, f64)> {
    let rings = (0..RINGS).map(move |ring| clear + RING * ring as f64);
    rings.flat_map(move |distance| {
        let directions = if distance == 0.0 { 1 } else { DIRECTIONS };
        (0..directions).map(move |k| {
            let angle = std::f64::consts::TAU * k as f64 / DIRECTIONS as f64;
            let place = Point2 {
                x: anchor.x + distance * angle.cos(),
                y: anchor.y - distance * angle.sin(),
            };
            (place, distance)
        })
    })
}
