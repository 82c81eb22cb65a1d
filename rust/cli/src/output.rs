//! Where output goes: standard output, or a file that appears whole or not at all.

use std::ffi::OsStr;
use std::fs::{self, File, OpenOptions, Permissions};
use std::io::{self, ErrorKind, Write};
use std::os::unix::fs::{OpenOptionsExt, PermissionsExt};
use std::path::{Path, PathBuf};

use crate::printable;

#[derive(Debug)]
pub enum Lost {
    /// The reader of standard output has gone.
    ClosedPipe,
    Message(String),
}

pub fn write(name: Option<&OsStr>, bytes: &[u8]) -> Result<(), Lost> {
    match name {
        Some(name) if name != "-" => write_file(Path::new(name), bytes)
            .map_err(|error| Lost::Message(format!("{}: {error}", printable(name)))),
        _ => write_standard(bytes).map_err(|error| match error.kind() {
            ErrorKind::BrokenPipe => Lost::ClosedPipe,
            _ => Lost::Message(format!("standard output: {error}")),
        }),
    }
}

fn write_standard(bytes: &[u8]) -> io::Result<()> {
    let mut output = io::stdout().lock();
    output.write_all(bytes)?;
    output.flush()
}

fn write_file(path: &Path, bytes: &[u8]) -> io::Result<()> {
    match File::options().write(true).open(path) {
        Ok(file) => match file.metadata()? {
            old if old.is_file() => {
                replace(&fs::canonicalize(path)?, bytes, Some(old.permissions()))
            }
            // A device or a pipe is not to be replaced by a file.
            _ => (&file).write_all(bytes),
        },
        Err(error) if error.kind() == ErrorKind::NotFound => {
            replace(&end_of_links(path), bytes, None)
        }
        Err(error) => Err(error),
    }
}

/// Where links lead that end in nothing, so that they stay links.
fn end_of_links(path: &Path) -> PathBuf {
    let mut path = path.to_path_buf();
    while let Ok(link) = fs::read_link(&path) {
        path = path.with_file_name("").join(link);
    }
    path
}

/// By a file beside it that is given its name at the end.
fn replace(path: &Path, bytes: &[u8], permissions: Option<Permissions>) -> io::Result<()> {
    let beside = path.with_file_name(format!(".gantry-{}", std::process::id()));
    let mut options = OpenOptions::new();
    options.write(true).create_new(true);
    if let Some(permissions) = &permissions {
        options.mode(permissions.mode());
    }
    let file = options.open(&beside)?;
    let put = fill(file, bytes, permissions).and_then(|()| fs::rename(&beside, path));
    put.inspect_err(|_| {
        let _ = fs::remove_file(&beside);
    })
}

fn fill(mut file: File, bytes: &[u8], permissions: Option<Permissions>) -> io::Result<()> {
    file.write_all(bytes)?;
    if let Some(permissions) = permissions {
        file.set_permissions(permissions)?;
    }
    file.sync_all()
}
