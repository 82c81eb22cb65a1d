//! A file or standard input, and what it is.

use std::ffi::OsStr;
use std::fs::File;
use std::io::{self, Read};

use gantry::{read_nodes, NodeFile, Refusal, NODE_LIMIT};

use crate::{because, grouped, listing, printable, Failure};

/// More is not read.
pub const INPUT_LIMIT: usize = 1 << 22;

pub struct Source {
    /// As messages call it.
    pub name: String,
    pub bytes: Vec<u8>,
}

#[derive(Debug, PartialEq, Eq)]
pub enum Kind {
    Nodes(NodeFile),
    RefusedNodes(Refusal),
    Listing,
    Text,
}

impl Source {
    /// Of a file, or of standard input for `-`.
    pub fn read(word: &OsStr) -> Result<Source, Failure> {
        let name = match word.to_str() {
            Some("-") => "standard input".to_string(),
            _ => printable(word),
        };
        let bytes = match word.to_str() {
            Some("-") => read_all(io::stdin()),
            _ => File::open(word).and_then(read_all),
        };
        let bytes = bytes.map_err(|error| Failure::input(format!("{name}: {error}")))?;
        if bytes.len() > INPUT_LIMIT {
            let message = format!("{name}: too long: at most {} bytes", grouped(INPUT_LIMIT));
            return Err(Failure::input(message));
        }
        Ok(Source { name, bytes })
    }

    pub fn failure(&self, message: &str) -> Failure {
        Failure::input(format!("{}: {message}", self.name))
    }

    /// A node file has a byte 0: its count is at most 1,016, in four bytes. Text and listings have none.
    pub fn kind(&self) -> Kind {
        let bytes = &self.bytes;
        if bytes.is_empty() {
            Kind::RefusedNodes(Refusal::Trailer)
        } else if bytes.contains(&0) {
            read_nodes(bytes).map_or_else(Kind::RefusedNodes, Kind::Nodes)
        } else if listing::begins(bytes) {
            Kind::Listing
        } else {
            Kind::Text
        }
    }

    /// A node file that was refused, with its own numbers, or what it is instead.
    pub fn refused(&self, refusal: Refusal) -> Failure {
        let why = match (refusal, self.trailer()) {
            (Refusal::Trailer, trailer) => self.no_node_file().unwrap_or_else(|| match trailer {
                Some(trailer) => wrong_trailer(trailer, self.bytes.len() - 20),
                None => format!("it has {} bytes, and a trailer has 20", self.bytes.len()),
            }),
            (_, Some([x, y, z, ..])) => format!("its box is {x} {y} {z}; {}", refusal.when()),
            (_, None) => refusal.when().to_string(),
        };
        Failure::Input {
            messages: vec![format!("{}: {}", self.name, because(refusal, &why))],
            refusal: Some(refusal),
        }
    }

    fn no_node_file(&self) -> Option<String> {
        let bytes = &self.bytes[..];
        let what = if bytes.is_empty() {
            "it is empty"
        } else if bytes.starts_with(b"PK\x03\x04") {
            "it is a spreadsheet file or an archive: export the nodes as CSV"
        } else if is_utf_16(bytes) {
            "it is text in UTF-16: save it as CSV or text in UTF-8"
        } else {
            return None;
        };
        Some(what.to_string())
    }

    /// Sides, count and distance.
    fn trailer(&self) -> Option<[u32; 5]> {
        let bytes = self.bytes.last_chunk::<20>()?;
        let (numbers, _) = bytes.as_chunks();
        Some([0, 1, 2, 3, 4].map(|place| u32::from_le_bytes(numbers[place])))
    }
}

fn wrong_trailer([_, _, _, count, distance]: [u32; 5], before: usize) -> String {
    let wanted = u64::from(count) * 12;
    let counts = format!("its count is {count} and its distance {distance}");
    if count as usize > NODE_LIMIT {
        let limit = grouped(NODE_LIMIT);
        format!("{counts}, and a count is at most {limit}: is it a node file, and whole?")
    } else if u64::from(distance) != wanted {
        format!("{counts}, and 12 × {count} is {wanted}")
    } else {
        format!("{counts}, and {before} bytes stand before the trailer: is it whole?")
    }
}

/// A byte order mark and no character 0; or, without the mark, every second byte 0.
fn is_utf_16(bytes: &[u8]) -> bool {
    let (units, _) = bytes.as_chunks::<2>();
    let is_latin = |high: usize| {
        let mut units = units.iter();
        units.all(|unit| unit[high] == 0 && unit[1 - high] != 0)
    };
    match units {
        [[0xff, 0xfe] | [0xfe, 0xff], rest @ ..] => !rest.contains(&[0, 0]),
        [] => false,
        _ => is_latin(0) || is_latin(1),
    }
}

fn read_all(input: impl Read) -> io::Result<Vec<u8>> {
    let mut bytes = Vec::new();
    input.take(INPUT_LIMIT as u64 + 1).read_to_end(&mut bytes)?;
    Ok(bytes)
}
