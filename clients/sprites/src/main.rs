//! Packs the PNG files of a folder into sheets: `sprites [--size N] [--padding N] FOLDER OUTPUT`.

use std::env;
use std::io::{self, Write};
use std::path::PathBuf;
use std::process::ExitCode;

use sprites::sheets::{read_folder, write_sheets, Report};
use sprites::Fault;

const USAGE: &str = "usage: sprites [--size N] [--padding N] FOLDER OUTPUT

packs the PNG files in FOLDER into square sheets, and writes sheet-0.png .. and index.json into OUTPUT
  --size N      the side of a sheet in pixels, 1024 else
  --padding N   how many pixels between two sprites stay empty, 1 else";

/// What is asked for.
struct Request {
    side: i32,
    padding: i32,
    folder: PathBuf,
    output: PathBuf,
}

/// A number of pixels, if it is one.
fn length(word: Option<std::ffi::OsString>) -> Option<i32> {
    word?.to_str()?.parse().ok().filter(|&number| number >= 0)
}

/// What the arguments ask for, or none where they aren't as [`USAGE`] says.
fn request() -> Option<Request> {
    let (mut side, mut padding, mut folders) = (1024, 1, Vec::new());
    let mut words = env::args_os().skip(1);
    while let Some(word) = words.next() {
        match word.to_str() {
            Some("--size") => side = length(words.next())?,
            Some("--padding") => padding = length(words.next())?,
            Some(option) if option.starts_with('-') => return None,
            _ => folders.push(PathBuf::from(word)),
        }
    }
    let [folder, output] = <[PathBuf; 2]>::try_from(folders).ok()?;
    Some(Request { side, padding, folder, output })
}

fn run(request: &Request) -> Result<Report, Fault> {
    let sprites = read_folder(&request.folder)?;
    write_sheets(&sprites, request.side, request.padding, &request.output)
}

fn main() -> ExitCode {
    let Some(request) = request() else {
        eprintln!("{USAGE}");
        return ExitCode::from(2);
    };
    match run(&request) {
        Ok(report) => {
            // Where nobody listens, nothing is lost.
            let _ = io::stdout().write_all(report.to_string().as_bytes());
            ExitCode::SUCCESS
        }
        Err(fault) => {
            eprintln!("sprites: {fault}");
            ExitCode::FAILURE
        }
    }
}
