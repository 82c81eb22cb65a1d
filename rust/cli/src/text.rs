//! Nodes as text, written by hand or exported by a spreadsheet: the box `X Y Z` on the first line of numbers, unless it was
//! given, then a node `x y z` a line. Numbers stand between blanks, tabs, commas or semicolons, perhaps in quotes. Headings
//! above the first line of numbers, blank lines and comments are passed over; a heading has no number, and is told.

use std::collections::{BTreeSet, HashMap};

use gantry::{Mesh, Position, NODE_LIMIT, SIDE_LIMIT};

use crate::fields::{
    axes, is_like_a_number, is_of_heading, position, split, without_comment, Fault,
};
use crate::{grouped, is_outside, of_line, shown, spaced};

/// How text is to be read.
#[derive(Clone, Copy, Debug, Default)]
pub struct Reading {
    /// The box, where the text does not begin with it.
    pub sides: Option<Position>,
    /// Leave box corners and repeated nodes out.
    pub leave_out: bool,
}

/// What a text holds.
#[derive(Debug, PartialEq, Eq)]
pub struct Read {
    pub sides: Position,
    /// The line that the box was taken from; lines are counted from 1.
    pub box_line: Option<usize>,
    pub nodes: Vec<Position>,
    /// The line of each node.
    pub lines: Vec<usize>,
    /// What was passed over as a heading, and what was left out.
    pub notes: Vec<String>,
    /// How many lines were left out.
    pub left_out: usize,
}

/// At most so many faults are told.
pub const FAULTS_TOLD: usize = 20;

/// The nodes of a text, or what is wrong with it, a message a fault.
pub fn read(bytes: &[u8], reading: Reading) -> Result<Read, Vec<String>> {
    let mut reader = Reader::new(reading);
    for (number, line) in lines(bytes).iter().enumerate() {
        reader.read_line(number + 1, line);
    }
    reader.end()
}

/// A byte order mark is skipped.
pub fn lines(bytes: &[u8]) -> Vec<String> {
    let bytes = bytes.strip_prefix(b"\xef\xbb\xbf").unwrap_or(bytes);
    let text = String::from_utf8_lossy(bytes);
    // A lone carriage return ends a line too, as on old Macintoshes.
    let text = text.replace("\r\n", "\n").replace('\r', "\n");
    text.split('\n').map(str::to_string).collect()
}

/// A box, with its corners by place, and the line that it was read from.
struct Frame {
    sides: Position,
    corners: HashMap<Position, usize>,
    line: Option<usize>,
}

impl Frame {
    fn new(sides: Position, line: Option<usize>) -> Option<Frame> {
        let [x, y, z] = sides;
        let mesh = Mesh::start(x, y, z).ok()?;
        let corners = mesh.points().iter().copied().zip(0..).collect();
        Some(Frame {
            sides,
            corners,
            line,
        })
    }
}

/// Said after the faults.
#[derive(PartialEq, Eq, PartialOrd, Ord)]
enum Hint {
    Separators,
    /// The line that the box was taken from.
    Sides(usize),
    LeaveOut,
}

impl Hint {
    fn text(&self) -> String {
        match self {
            Hint::Separators => {
                "numbers are written without decimals and without separators of thousands"
                    .to_string()
            }
            Hint::Sides(line) => format!(
                "line {line} was taken as the box; if it is a node, give the box by --box X Y Z"
            ),
            Hint::LeaveOut => {
                "with --leave-out, box corners and repeated nodes are left out".to_string()
            }
        }
    }
}

struct Reader {
    reading: Reading,
    /// A line of numbers was read: no heading follows.
    has_begun: bool,
    frame: Option<Frame>,
    nodes: Vec<Position>,
    lines: Vec<usize>,
    line_of: HashMap<Position, usize>,
    notes: Vec<String>,
    left_out: usize,
    /// The first ones, and how many there are.
    faults: Vec<String>,
    fault_count: usize,
    hints: BTreeSet<Hint>,
}

impl Reader {
    fn new(reading: Reading) -> Reader {
        Reader {
            reading,
            has_begun: false,
            frame: reading.sides.and_then(|sides| Frame::new(sides, None)),
            nodes: Vec::new(),
            lines: Vec::new(),
            line_of: HashMap::new(),
            notes: Vec::new(),
            left_out: 0,
            faults: Vec::new(),
            fault_count: 0,
            hints: BTreeSet::new(),
        }
    }

    fn fault(&mut self, line: usize, what: &str) {
        self.fault_count += 1;
        if self.fault_count <= FAULTS_TOLD {
            self.faults.push(format!("line {line}: {what}"));
        }
    }

    fn read_line(&mut self, number: usize, line: &str) {
        let fields = split(without_comment(line));
        if !self.has_begun {
            let is_numbers = fields.iter().all(|field| is_like_a_number(field));
            if fields.is_empty() || !is_numbers {
                return self.pass_over(number, line, &fields);
            }
            self.has_begun = true;
            if self.frame.is_none() {
                return self.take_box(number, line, &fields);
            }
        }
        if fields.is_empty() {
            return;
        }
        match position(&fields, "a node has three, x y z") {
            Ok(node) => self.take_node(number, node),
            Err(fault) => self.wrong_line(number, line, fault),
        }
    }

    fn wrong_line(&mut self, number: usize, line: &str, fault: Fault) {
        if fault.is_broken_number || line.contains([',', '.']) {
            self.hints.insert(Hint::Separators);
        }
        self.fault(number, &fault.what);
    }

    /// A heading, or a blank line or comment above the numbers.
    fn pass_over(&mut self, number: usize, line: &str, fields: &[String]) {
        let (named, text) = (axes(line), shown(line.trim()));
        if named.len() > 1 && named != ['x', 'y', 'z'] {
            let named: String = named.iter().map(|axis| format!(" {axis}")).collect();
            let fault = format!("a heading with the columns{named}; the order is x y z");
            self.fault(number, &fault);
        } else if !fields.iter().all(|field| is_of_heading(field)) {
            let fault = format!("{text} is not a line of numbers; begin a heading with '# '");
            self.fault(number, &fault);
        } else if !fields.is_empty() {
            let note = format!("line {number} passed over as a heading: {text}");
            self.notes.push(note);
        }
    }

    fn take_box(&mut self, number: usize, line: &str, fields: &[String]) {
        let sides = match position(fields, "the box has three, X Y Z") {
            Ok(sides) => sides,
            Err(fault) => return self.wrong_line(number, line, fault),
        };
        self.frame = Frame::new(sides, Some(number));
        let sides = spaced(sides);
        if self.frame.is_none() {
            let limit = grouped(SIDE_LIMIT as usize);
            self.hints.insert(Hint::Sides(number));
            let fault = format!("a box {sides}: its sides are from 1 to {limit}");
            self.fault(number, &fault);
        } else if !self.notes.is_empty() {
            // Below a heading a node is more likely than a box.
            self.notes
                .push(format!("line {number} is the box: {sides}"));
        }
    }

    fn take_node(&mut self, line: usize, node: Position) {
        // Without a box there is nothing more to say of a node.
        let Some(frame) = &self.frame else { return };
        let (place, of_line) = (spaced(node), of_line(frame.line));
        if is_outside(frame.sides, node) {
            let sides = spaced(frame.sides);
            self.hints.extend(frame.line.map(Hint::Sides));
            let fault = format!("{place} is outside the box {sides}{of_line}");
            return self.fault(line, &fault);
        }
        let known = match (frame.corners.get(&node), self.line_of.get(&node)) {
            (Some(corner), _) => {
                format!("{place} is a corner of the box{of_line}, point {corner} from the start")
            }
            (None, Some(earlier)) => format!("same as line {earlier}, {place}"),
            (None, None) => return self.put_node(line, node),
        };
        if self.reading.leave_out {
            self.left_out += 1;
            self.notes.push(format!("line {line} left out: {known}"));
        } else {
            self.hints.insert(Hint::LeaveOut);
            self.fault(line, &format!("{known}: leave it out"));
        }
    }

    fn put_node(&mut self, line: usize, node: Position) {
        self.nodes.push(node);
        self.lines.push(line);
        self.line_of.insert(node, line);
    }

    fn end(mut self) -> Result<Read, Vec<String>> {
        if let Some(&line) = self.lines.get(NODE_LIMIT) {
            let [count, limit] = [self.nodes.len(), NODE_LIMIT].map(grouped);
            let fault =
                format!("{count} nodes, and {limit} is the most: use fewer, or divide the box");
            self.fault(line, &fault);
        }
        match &self.frame {
            Some(frame) if self.has_begun && self.fault_count == 0 => Ok(Read {
                sides: frame.sides,
                box_line: frame.line,
                nodes: self.nodes,
                lines: self.lines,
                notes: self.notes,
                left_out: self.left_out,
            }),
            _ => Err(self.told()),
        }
    }

    fn told(self) -> Vec<String> {
        let more = self.fault_count - self.faults.len();
        let mut told = self.faults;
        if more > 0 {
            told.push(format!("and {more} more"));
        }
        match (self.has_begun, self.frame) {
            (true, _) => {}
            (false, Some(_)) => told.push("no line of numbers".to_string()),
            (false, None) => told.push(
                "no line of numbers: the box X Y Z comes first, or is given by --box X Y Z"
                    .to_string(),
            ),
        }
        told.extend(self.hints.iter().map(Hint::text));
        told
    }
}
