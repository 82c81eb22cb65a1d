//! bench [ROUNDS], bench run BUILD WORK PASSES, bench works, bench asked

mod asked;
mod nodes;
mod timing;
mod work;

use std::hint::black_box;
use std::process::ExitCode;

use compare::{Archive, Builder, Plain, Tuned};
use timing::Timed;
use work::{Work, ENTRIES};

const USAGE: &str = "usage: bench [ROUNDS]                  times of all builds on all works, as a Markdown table
       bench run BUILD WORK PASSES    only so many passes, for a counter of instructions
       bench works                    the works: name, unit, units a pass, passes to count, bar, title
       bench asked                    the lists: cells asked by the sphere test, and those that are close
BUILD is plain, tuned or archive.";

const PLAIN: Plain = Plain::RIGHT;

fn build(name: &str) -> Option<&'static dyn Builder> {
    match name {
        "plain" => Some(&PLAIN),
        "tuned" => Some(&Tuned),
        "archive" => Some(&Archive),
        _ => None,
    }
}

/// All builds must leave the same before any is measured.
fn agree(work: &mut Work, builds: &[&dyn Builder]) -> Result<(), String> {
    let lefts: Vec<_> = builds.iter().map(|build| work.left(*build)).collect();
    if !work.is_answered(&lefts[0]) {
        return Err("another answer than meant".to_string());
    }
    match lefts.iter().position(|left| *left != lefts[0]) {
        Some(b) => Err(format!("{} leaves something else", builds[b].name())),
        None => Ok(()),
    }
}

/// About three digits.
fn short(number: f64) -> String {
    let places = match number {
        ..10.0 => 2,
        ..100.0 => 1,
        _ => 0,
    };
    format!("{number:.places$}")
}

fn table(rounds: usize) -> Result<(), String> {
    let builds: [&dyn Builder; 3] = [&PLAIN, &Tuned, &Archive];
    let mut timed = vec![];
    for entry in ENTRIES {
        let mut work = entry.work();
        agree(&mut work, &builds).map_err(|what| format!("{}: {what}", entry.title))?;
        timed.push((entry.title, Timed::new(work, &builds)));
    }
    for round in 0..rounds {
        for (_, timed) in &mut timed {
            timed.round(round);
        }
    }
    println!("Microseconds a unit, the least of {rounds} interleaved rounds.\n");
    println!("| work | unit | plain | tuned | archive | archive / tuned |");
    println!("|---|---|---|---|---|---|");
    for (title, timed) in &timed {
        let times = timed.microseconds();
        let columns: Vec<String> = times.iter().map(|&time| short(time)).collect();
        let (unit, columns) = (timed.unit(), columns.join(" | "));
        println!(
            "| {title} | {unit} | {columns} | {:.2} |",
            times[2] / times[1]
        );
    }
    Ok(())
}

fn run(name: &str, work: &str, passes: &str) -> Option<()> {
    let build = build(name)?;
    let mut work = ENTRIES.iter().find(|entry| entry.name == work)?.work();
    for _ in 0..passes.parse::<u64>().ok()? {
        black_box(work.pass(build));
    }
    Some(())
}

fn works() {
    for entry in ENTRIES {
        let work = entry.work();
        let bar = entry.bar.map_or("-".to_string(), |bar| bar.to_string());
        println!(
            "{} {} {} {} {bar} {}",
            entry.name, work.unit, work.units, work.passes, entry.title
        );
    }
}

fn asked() {
    println!("| work | cells asked a node | close |");
    println!("|---|---|---|");
    for entry in ENTRIES {
        let work = entry.work();
        if let Some(set) = work.list() {
            let asked = asked::asked(set);
            let [cells, close] = [asked.cells, asked.close].map(|n| n as f64 / work.units as f64);
            println!("| {} | {cells:.1} | {close:.2} |", entry.title);
        }
    }
}

fn main() -> ExitCode {
    let words: Vec<String> = std::env::args().skip(1).collect();
    let words: Vec<&str> = words.iter().map(String::as_str).collect();
    let wrong = || USAGE.to_string();
    let done = match words[..] {
        [] => table(25),
        ["works"] => {
            works();
            Ok(())
        }
        ["asked"] => {
            asked();
            Ok(())
        }
        ["run", build, work, passes] => run(build, work, passes).ok_or_else(wrong),
        [rounds] => match rounds.parse() {
            Ok(rounds) if rounds > 0 => table(rounds),
            _ => Err(wrong()),
        },
        _ => Err(wrong()),
    };
    match done {
        Ok(()) => ExitCode::SUCCESS,
        Err(message) => {
            eprintln!("{message}");
            ExitCode::FAILURE
        }
    }
}
