//! The command `describe`, which tools/describe builds and runs: arguments, the file, and the exit status: 0 described, 2 wrong arguments or a file
//! that cannot be read. Leans on lib.
use mondzafeky::saved;
use std::ffi::OsString;
use std::fs::File;
use std::io::{self, Read, Write};
use std::process::ExitCode;

const USAGE: &str = include_str!("../usage.txt");

/// What is asked for.
enum Asked {
    Help,
    Describe { file: OsString, all: bool },
}

/// What the arguments ask for, or what is wrong with them.
fn asked(arguments: impl Iterator<Item = OsString>) -> Result<Asked, String> {
    let (mut file, mut all) = (None, false);
    for argument in arguments {
        match argument.to_str() {
            Some("--help") => return Ok(Asked::Help),
            Some("--all") => all = true,
            Some(flag) if flag.starts_with('-') => return Err(format!("there is no flag {flag}")),
            _ if file.is_some() => return Err(format!("one FILE is wanted, {} is one more", argument.display())),
            _ => file = Some(argument),
        }
    }
    file.map(|file| Asked::Describe { file, all }).ok_or("the FILE of a saved hall is wanted".to_string())
}

/// A saved hall and at most one byte more, which tells that the file is longer: it may have no end.
fn read(file: &OsString) -> io::Result<Vec<u8>> {
    let mut bytes = Vec::new();
    File::open(file)?.take(saved::BYTES as u64 + 1).read_to_end(&mut bytes)?;
    Ok(bytes)
}

fn main() -> ExitCode {
    let text = match asked(std::env::args_os().skip(1)) {
        Ok(Asked::Help) => USAGE.to_string(),
        Ok(Asked::Describe { file, all }) => match read(&file) {
            Ok(bytes) => format!("{}: {}", file.display(), describe::describe(&bytes, all)),
            Err(error) => {
                eprintln!("describe: {} cannot be read ({error}); the file of a saved hall is wanted, see --help", file.display());
                return ExitCode::from(2);
            }
        },
        Err(fault) => {
            eprint!("describe: {fault}\n{USAGE}");
            return ExitCode::from(2);
        }
    };
    // A reader that has gone away, as `head` does, is no fault.
    let _ = io::stdout().write_all(text.as_bytes());
    ExitCode::SUCCESS
}
