//! The command, run in a directory of a test's own.

#![allow(dead_code)]

use std::fs;
use std::io::Write;
use std::path::PathBuf;
use std::process::{Command, Stdio};

pub const GANTRY: &str = env!("CARGO_BIN_EXE_gantry");

/// A directory of a test's own.
pub struct Place(pub PathBuf);

impl Place {
    pub fn new(name: &str) -> Place {
        let path = std::env::temp_dir().join(format!("gantry-{name}-{}", std::process::id()));
        fs::create_dir(&path).expect("a temporary directory");
        Place(path)
    }

    pub fn put(&self, name: &str, bytes: impl AsRef<[u8]>) -> &Place {
        fs::write(self.0.join(name), bytes).expect("a file");
        self
    }

    pub fn bytes(&self, name: &str) -> Vec<u8> {
        fs::read(self.0.join(name)).expect("a file")
    }

    pub fn names(&self) -> Vec<String> {
        let entries = fs::read_dir(&self.0).expect("a directory");
        let name = |entry: std::io::Result<fs::DirEntry>| entry.unwrap().file_name();
        let mut names: Vec<String> = entries
            .map(|entry| name(entry).into_string().unwrap())
            .collect();
        names.sort();
        names
    }

    /// The command line, and what is on standard input.
    pub fn run(&self, line: &str, input: &[u8]) -> Ran {
        let mut child = Command::new(GANTRY)
            .args(line.split_whitespace())
            .current_dir(&self.0)
            .stdin(Stdio::piped())
            .stdout(Stdio::piped())
            .stderr(Stdio::piped())
            .spawn()
            .expect("the program starts");
        let mut stdin = child.stdin.take().expect("its standard input is open");
        // Wrong words are told before input is read.
        let _ = stdin.write_all(input);
        drop(stdin);
        let output = child.wait_with_output().expect("the program ends");
        Ran {
            status: output.status.code(),
            output: output.stdout,
            said: String::from_utf8(output.stderr).expect("text"),
        }
    }
}

impl Drop for Place {
    fn drop(&mut self) {
        let _ = fs::remove_dir_all(&self.0);
    }
}

pub struct Ran {
    pub status: Option<i32>,
    pub output: Vec<u8>,
    pub said: String,
}

impl Ran {
    #[track_caller]
    pub fn done(self) -> String {
        self.done_with("")
    }

    /// With these messages.
    #[track_caller]
    pub fn done_with(self, said: &str) -> String {
        assert_eq!((self.status, &self.said[..]), (Some(0), said));
        String::from_utf8(self.output).expect("text")
    }

    /// Nothing is written, and the messages are these.
    #[track_caller]
    pub fn refused(self, status: i32, said: &str) {
        assert_eq!((self.status, &self.said[..]), (Some(status), said));
        assert!(self.output.is_empty());
    }
}
