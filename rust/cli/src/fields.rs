//! A line of text as fields, and fields as whole numbers.

use gantry::{Position, SIDE_LIMIT};

use crate::{grouped, shown};

/// What is wrong with a line.
#[derive(Debug, PartialEq, Eq)]
pub struct Fault {
    pub what: String,
    /// Decimals or separators of thousands may be the reason.
    pub is_broken_number: bool,
}

impl Fault {
    fn new(what: String) -> Fault {
        Fault {
            what,
            is_broken_number: false,
        }
    }
}

/// Further columns are not looked at: there are too many anyway.
const FIELD_LIMIT: usize = 100;

/// A line without its comment, which begins with a `#` before a blank or the end: `#VALUE!` is none.
pub fn without_comment(line: &str) -> &str {
    let begins = |&(place, _): &(usize, &str)| {
        let rest = &line[place + 1..];
        rest.is_empty() || rest.starts_with(|c: char| c.is_ascii_whitespace())
    };
    match line.match_indices('#').find(begins) {
        Some((place, _)) => &line[..place],
        None => line,
    }
}

/// Semicolons separate where there are some, else tabs, else commas, else blanks. What does not separate stands in a field,
/// and that is no number then.
pub fn split(line: &str) -> Vec<String> {
    let separator = [';', '\t', ','].into_iter().find(|&s| line.contains(s));
    let mut fields = vec![String::new()];
    let mut is_quoted = false;
    for character in line.chars() {
        is_quoted ^= character == '"';
        let separates = separator.map_or(character.is_ascii_whitespace(), |s| s == character);
        if !separates || is_quoted {
            if let Some(field) = fields.last_mut() {
                field.push(character);
            }
        } else if fields.len() < FIELD_LIMIT {
            fields.push(String::new());
        } else {
            break;
        }
    }
    let mut fields: Vec<String> = fields.iter().map(|field| unquoted(field)).collect();
    if separator.is_none() {
        fields.retain(|field| !field.is_empty());
    }
    // Columns without an entry in this line.
    while fields.last().is_some_and(String::is_empty) {
        fields.pop();
    }
    fields
}

fn unquoted(field: &str) -> String {
    let field = field.trim();
    let inner = field.strip_prefix('"').and_then(|f| f.strip_suffix('"'));
    inner.unwrap_or(field).trim().to_string()
}

fn is_sign(character: char) -> bool {
    ['-', '−', '+'].contains(&character)
}

/// Does it begin as a number does?
pub fn is_like_a_number(field: &str) -> bool {
    let digits = field.trim_start_matches(is_sign);
    let digits = digits.trim_start_matches(['.', ',']);
    digits.starts_with(|c: char| c.is_ascii_digit())
}

/// May it stand in a heading? It has no digit, or a unit's in brackets after a word: `(500)` is how some spreadsheets write
/// −500. A spreadsheet's error as `#VALUE!` is no heading either.
pub fn is_of_heading(field: &str) -> bool {
    let mut depth = 0_usize;
    let outside = field.chars().filter(|c| {
        match c {
            '[' | '(' => depth += 1,
            ']' | ')' => depth = depth.saturating_sub(1),
            _ => {}
        }
        depth == 0
    });
    let outside: String = outside.collect();
    let has_digit = |text: &str| text.contains(char::is_numeric);
    let has_unit = outside.contains(char::is_alphabetic) && !has_digit(&outside);
    (has_unit || !has_digit(field)) && !field.starts_with('#')
}

/// The axes that a heading names by a letter of its own, in its order.
pub fn axes(line: &str) -> Vec<char> {
    let mut axes = Vec::new();
    for word in line.split(|c: char| !c.is_alphanumeric()) {
        let axis = match word {
            "x" | "X" => 'x',
            "y" | "Y" => 'y',
            "z" | "Z" => 'z',
            _ => continue,
        };
        if !axes.contains(&axis) {
            axes.push(axis);
        }
    }
    axes
}

/// Three numbers, or what is wrong with the fields; `wanted` says what has three.
pub fn position(fields: &[String], wanted: &str) -> Result<Position, Fault> {
    if let [x, y, z] = fields {
        return Ok([number(x, 1)?, number(y, 2)?, number(z, 3)?]);
    }
    let count = match fields.len() {
        1 => "1 column".to_string(),
        FIELD_LIMIT => format!("{FIELD_LIMIT} columns or more"),
        count => format!("{count} columns"),
    };
    Err(Fault::new(format!("{count}, and {wanted}")))
}

fn number(field: &str, column: usize) -> Result<u32, Fault> {
    if field.is_empty() {
        return Err(Fault::new(format!("column {column} is empty")));
    }
    let digits = field.strip_prefix('+').unwrap_or(field);
    if !digits.bytes().all(|byte| byte.is_ascii_digit()) {
        return Err(no_number(field));
    }
    digits.parse().map_err(|_| {
        let (shown, limit) = (shown(field), grouped(SIDE_LIMIT as usize));
        Fault::new(format!("{shown} is too large: at most {limit}"))
    })
}

fn no_number(field: &str) -> Fault {
    let is_made_of = |more: &str| {
        let fits = |c: char| c.is_ascii_digit() || is_sign(c) || more.contains(c);
        is_like_a_number(field) && field.chars().all(fits)
    };
    let is_negative = field.starts_with(['-', '−']) && is_like_a_number(field);
    let is_broken_number = !is_negative && is_made_of(".,' \u{a0}\u{202f}\u{2019}_");
    let what = if is_negative {
        "is negative: the box begins at 0, so shift the coordinates"
    } else if is_broken_number {
        "is not a whole number: scale to whole steps"
    } else if is_made_of(".,eE") {
        "is in scientific notation: format the column as whole numbers and export it again"
    } else if field.starts_with('#') {
        "is a spreadsheet's error: repair the cell or widen the column, and export it again"
    } else {
        "is not a number"
    };
    Fault {
        what: format!("{} {what}", shown(field)),
        is_broken_number,
    }
}
