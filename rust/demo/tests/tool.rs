//! The flags of tools/demo, and what it says where something is missing; nothing is built by these.

use std::fs;
use std::os::unix::fs::symlink;
use std::path::{Path, PathBuf};
use std::process::{Command, Output};

fn tool() -> PathBuf {
    Path::new(env!("CARGO_MANIFEST_DIR")).join("../../tools/demo")
}

/// Status, what it printed, what it complained about.
fn ran(output: Output) -> (Option<i32>, String, String) {
    let [out, err] = [output.stdout, output.stderr].map(|bytes| String::from_utf8(bytes).unwrap());
    (output.status.code(), out, err)
}

#[test]
fn help_says_what_it_takes() {
    let (status, out, err) = ran(Command::new(tool()).arg("--help").output().unwrap());
    assert_eq!((status, err.as_str()), (Some(0), ""));
    assert!(out.starts_with("tools/demo [--unproved]") && out.contains("--help"));
}

#[test]
fn an_unknown_flag_is_told_with_what_was_wanted() {
    for flags in [&["--proved"][..], &["--unproved", "7"]] {
        let (status, out, err) = ran(Command::new(tool()).args(flags).output().unwrap());
        assert_eq!((status, out.as_str()), (Some(2), ""));
        assert_eq!(err, format!("demo: {} is not known; wanted: tools/demo [--unproved], or --help\n", flags.last().unwrap()));
    }
}

/// Runs a copy of the tool in a folder without an archive; only the named programs are found.
fn alone(name: &str, programs: &[&str]) -> (Option<i32>, String, String) {
    let folder = std::env::temp_dir().join(format!("demo-tool-{}-{name}", std::process::id()));
    let (tools, bin) = (folder.join("tools"), folder.join("bin"));
    fs::create_dir_all(&tools).unwrap();
    fs::create_dir_all(&bin).unwrap();
    fs::copy(tool(), tools.join("demo")).unwrap();
    for program in programs {
        let found = std::env::split_paths(&std::env::var_os("PATH").unwrap()).map(|p| p.join(program)).find(|p| p.is_file());
        // where the tests were started by a cargo that is not on the path: it only has to be there, nothing is built
        symlink(found.unwrap_or("/bin/true".into()), bin.join(program)).unwrap();
    }
    let output = Command::new(bin.join("bash")).arg(tools.join("demo")).env("PATH", &bin).env("CARGO_HOME", &folder).output();
    fs::remove_dir_all(&folder).unwrap();
    ran(output.unwrap())
}

#[test]
fn without_cargo_it_says_so() {
    let (status, out, err) = alone("cargo", &["bash", "dirname"]);
    assert_eq!((status, out.as_str()), (Some(1), ""), "{err}");
    assert!(err.starts_with("demo: cargo is missing"), "{err}");
}

#[test]
fn without_rt_and_without_an_archive_the_faulty_half_alone_is_not_shown() {
    let (status, out, err) = alone("rt", &["bash", "dirname", "cargo"]);
    assert_eq!((status, out.as_str()), (Some(1), ""), "{err}");
    assert!(err.starts_with("demo: rt is missing") && err.contains("archive at target/"), "{err}");
    assert!(err.contains("the faulty controller alone is not shown"), "{err}");
}
