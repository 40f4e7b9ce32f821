//! Packs files into an archive, lists its records, and writes them back to files.

#![forbid(unsafe_code)]

use poqewan::{Archive, LONGEST_TEXT};
use std::env;
use std::ffi::OsString;
use std::fmt::{self, Write as _};
use std::fs::{self, File};
use std::io::{self, Read, Write as _};
use std::path::{Path, PathBuf};
use std::process::ExitCode;

const USAGE: &str = "\
usage: archive pack ARCHIVE FILE..
       archive unpack ARCHIVE DIR
       archive list ARCHIVE

pack    writes the files as records, in the order given
unpack  writes record r to DIR/record-r, with four digits; DIR is created if missing
list    prints of each record its number, its start and its length

No file that exists is overwritten.
";

/// Why a command was not done.
enum Failure {
    /// It was not called as it must be.
    Usage,
    /// What went wrong, in words.
    Told(String),
}

/// What went wrong with a file.
fn told(path: &Path, what: impl fmt::Display) -> Failure {
    Failure::Told(format!("{}: {what}", path.display()))
}

fn main() -> ExitCode {
    let arguments: Vec<OsString> = env::args_os().skip(1).collect();
    match run(&arguments) {
        Ok(()) => ExitCode::SUCCESS,
        Err(Failure::Told(what)) => {
            eprintln!("archive: {what}");
            ExitCode::FAILURE
        }
        Err(Failure::Usage) => {
            eprint!("{USAGE}");
            ExitCode::from(2)
        }
    }
}

fn run(arguments: &[OsString]) -> Result<(), Failure> {
    let [command, rest @ ..] = arguments else {
        return Err(Failure::Usage);
    };
    match (command.to_str(), rest) {
        (Some("pack"), [archive, files @ ..]) => pack(Path::new(archive), files),
        (Some("unpack"), [archive, folder]) => unpack(Path::new(archive), Path::new(folder)),
        (Some("list"), [archive]) => list(Path::new(archive)),
        _ => Err(Failure::Usage),
    }
}

fn pack(path: &Path, files: &[OsString]) -> Result<(), Failure> {
    let mut records = Vec::with_capacity(files.len());
    // What is left of the longest archive. One byte more than that is enough to be refused.
    let mut left = LONGEST_TEXT;
    for file in files {
        let record = read(Path::new(file), left)?;
        left = left.saturating_sub(record.len());
        records.push(record);
    }
    let archive = poqewan::pack(&records).map_err(|why| told(path, why))?;
    write_new(path, &archive)
}

fn unpack(path: &Path, folder: &Path) -> Result<(), Failure> {
    let bytes = read(path, LONGEST_TEXT)?;
    let archive = open(path, &bytes)?;
    let files: Vec<PathBuf> = (0..archive.len())
        .map(|r| folder.join(format!("record-{r:04}")))
        .collect();

    // All names are looked at before anything is written. A link that leads nowhere is there, too.
    for file in &files {
        match fs::symlink_metadata(file) {
            Err(error) if error.kind() == io::ErrorKind::NotFound => (),
            Err(error) => return Err(told(file, error)),
            Ok(_) => return Err(told(file, "exists, and is not overwritten")),
        }
    }
    fs::create_dir_all(folder).map_err(|error| told(folder, error))?;
    for (file, record) in files.iter().zip(archive.records()) {
        write_new(file, record)?;
    }
    Ok(())
}

fn list(path: &Path) -> Result<(), Failure> {
    let bytes = read(path, LONGEST_TEXT)?;
    let mut lines = String::new();
    let mut start = 0;
    for (r, record) in open(path, &bytes)?.records().enumerate() {
        let len = record.len();
        writeln!(lines, "{r:04} {start:>8} {len:>8}").expect("a string takes all");
        // Records touch.
        start += len;
    }
    let mut out = io::stdout().lock();
    out.write_all(lines.as_bytes())
        .and_then(|()| out.flush())
        .map_err(|error| Failure::Told(format!("the list is not printed: {error}")))
}

fn open<'a>(path: &Path, bytes: &'a [u8]) -> Result<Archive<'a>, Failure> {
    Archive::open(bytes).map_err(|why| told(path, format!("refusal {}: {why}", why.number())))
}

/// Reads a file. Of one with more than so many bytes, just one byte more is read: it is refused by
/// its length, and may have no end.
fn read(path: &Path, most: usize) -> Result<Vec<u8>, Failure> {
    let mut bytes = Vec::new();
    File::open(path)
        .and_then(|file| file.take(most as u64 + 1).read_to_end(&mut bytes))
        .map_err(|error| told(path, error))?;
    Ok(bytes)
}

/// Writes a file that is not there yet. If that fails midway, nothing of it is left.
fn write_new(path: &Path, bytes: &[u8]) -> Result<(), Failure> {
    let mut file = File::create_new(path).map_err(|error| match error.kind() {
        io::ErrorKind::AlreadyExists => told(path, "exists, and is not overwritten"),
        _ => told(path, error),
    })?;
    file.write_all(bytes).map_err(|error| {
        // What is told is why it failed, whether or not the rest can be removed.
        let _ = fs::remove_file(path);
        told(path, error)
    })
}
