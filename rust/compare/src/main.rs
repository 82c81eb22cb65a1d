//! compare [--left NAME] [--right NAME] [--seed N] [--calls N] [--all-refusals]

use std::process::ExitCode;

use compare::{named, names, run, Builder, Plain, Ran, Tuned};

const USAGE: &str = "usage: compare [--left NAME] [--right NAME] [--seed N] [--calls N] [--all-refusals]
Makes so many random calls on two builds, plain and tuned unless others are named, and prints how often
each call gave each answer. Status 1: stopped at a difference, or at what is wrong with both. Status 3,
with --all-refusals: a refusal that some input reaches did not occur.";

struct Options {
    left: Box<dyn Builder>,
    right: Box<dyn Builder>,
    seed: u64,
    calls: u64,
    all_refusals: bool,
}

fn number(word: &str) -> Result<u64, String> {
    word.parse().map_err(|_| format!("{word}: no number"))
}

fn options() -> Result<Options, String> {
    let mut options = Options {
        left: Box::new(Plain::RIGHT),
        right: Box::new(Tuned),
        seed: 1,
        calls: 10_000,
        all_refusals: false,
    };
    let mut words = std::env::args().skip(1);
    while let Some(word) = words.next() {
        let mut value = || words.next().ok_or(format!("{word}: no value"));
        match word.as_str() {
            "--left" => options.left = named(&value()?)?,
            "--right" => options.right = named(&value()?)?,
            "--seed" => options.seed = number(&value()?)?,
            "--calls" => options.calls = number(&value()?)?,
            "--all-refusals" => options.all_refusals = true,
            _ => return Err(format!("{word}: unknown")),
        }
    }
    Ok(options)
}

fn compare(options: &Options) -> ExitCode {
    let (left, right) = (options.left.as_ref(), options.right.as_ref());
    let (seed, calls) = (options.seed, options.calls);
    let Ran { lists, tally } = match run(left, right, seed, calls) {
        Ok(ran) => ran,
        Err(stop) => {
            println!("{stop}");
            return ExitCode::from(1);
        }
    };
    let (left, right) = (left.name(), right.name());
    println!("{left} and {right}: {lists} lists, {calls} calls from seed {seed}, no difference");
    println!("{tally}");
    let missing = tally.missing();
    if options.all_refusals && !missing.is_empty() {
        println!("did not occur: {}", missing.join(", "));
        return ExitCode::from(3);
    }
    ExitCode::SUCCESS
}

fn main() -> ExitCode {
    match options() {
        Ok(options) => compare(&options),
        Err(message) => {
            eprintln!("{message}\n{USAGE}\nThe builds: {}.", names());
            ExitCode::from(2)
        }
    }
}
