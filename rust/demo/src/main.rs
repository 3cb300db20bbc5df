//! The program behind tools/demo, which builds it and says where the library's steps come from. Leans on the modules of lib.rs.

use demo::controller::FAULTY;
use demo::story::{fault_shows, faulty_half, library_fails, library_half, DIFFERENCE, SETTING};
use demo::trace::Trace;
use demo::{script, traced};
use std::io::Write;
use std::process::ExitCode;

const USAGE: &str = "wanted: demo calls | demo archive SOURCE | demo traced FILE SOURCE
  calls    the calls of the mixing, as numbers for the program that runs the library's code unproved
  archive  tells it all; the library's steps are made through its archive
  traced   tells it all; the library's steps are those that FILE holds
  SOURCE   what is printed about where the library's steps come from";

/// The library's steps, through its archive.
#[cfg(feature = "archive")]
fn from_archive() -> Result<Trace, String> {
    Ok(Trace::play(&demo::controller::Library))
}

#[cfg(not(feature = "archive"))]
fn from_archive() -> Result<Trace, String> {
    Err("this demo was built without the archive: cargo's --features archive".to_string())
}

fn from_file(path: &str) -> Result<Trace, String> {
    let text = std::fs::read_to_string(path).map_err(|error| format!("{path}: {error}"))?;
    traced::read(&text)
}

/// To the standard output; a reader that has closed it, as `head` does, has seen enough.
fn show(text: &str) {
    let _ = std::io::stdout().write_all(text.as_bytes());
}

/// Prints the whole, and says whether it was as it should be.
fn tell(library: &Trace, source: &str) -> Result<(), String> {
    let faulty = Trace::play(&FAULTY);
    show(&format!("{SETTING}\n\n{}\n\n{}\n", library_half(library, source), faulty_half(&faulty)));
    if let Some(what) = library_fails(library) {
        return Err(format!("THE LIBRARY DID NOT KEEP WHAT IT PROMISES: {what}"));
    }
    if !fault_shows(&faulty) {
        return Err("the fault did not show in the faulty controller: the mixing is not the one that was meant".to_string());
    }
    show(&format!("\n{DIFFERENCE}"));
    Ok(())
}

fn main() -> ExitCode {
    let words: Vec<String> = std::env::args().skip(1).collect();
    let words: Vec<&str> = words.iter().map(String::as_str).collect();
    let done = match words[..] {
        ["calls"] => {
            show(&script::as_text());
            Ok(())
        }
        ["archive", source] => from_archive().and_then(|trace| tell(&trace, source)),
        ["traced", path, source] => from_file(path).and_then(|trace| tell(&trace, source)),
        _ => {
            eprintln!("{USAGE}");
            return ExitCode::from(2);
        }
    };
    match done {
        Ok(()) => ExitCode::SUCCESS,
        Err(what) => {
            eprintln!("demo: {what}");
            ExitCode::FAILURE
        }
    }
}
