//! The command: its arguments, what it says of wrong ones, its exit status, and that the file is as it was.
use mondzafeky::{saved, Hall};
use std::path::PathBuf;
use std::process::{Command, Output};

fn run(arguments: &[&str]) -> Output {
    Command::new(env!("CARGO_BIN_EXE_describe")).args(arguments).output().unwrap()
}

/// Status, what was printed, and what was said to be wrong.
fn told(arguments: &[&str]) -> (i32, String, String) {
    let output = run(arguments);
    let text = |bytes: Vec<u8>| String::from_utf8(bytes).unwrap();
    (output.status.code().unwrap(), text(output.stdout), text(output.stderr))
}

fn file(name: &str, bytes: &[u8]) -> PathBuf {
    let path = PathBuf::from(env!("CARGO_TARGET_TMPDIR")).join(name);
    std::fs::write(&path, bytes).unwrap();
    path
}

#[test]
fn a_saved_hall_is_described_and_left_as_it_was() {
    let bytes = Hall::open(3).unwrap().to_bytes();
    let path = file("sound", &bytes);
    let (status, text, wrong) = told(&[path.to_str().unwrap(), "--all"]);
    assert_eq!((status, wrong.as_str()), (0, ""));
    assert!(text.starts_with(path.to_str().unwrap()) && text.contains(": a saved hall, 113,600 bytes\n\nSizes\n  k        3\n"), "{text}");
    assert_eq!(std::fs::read(path).unwrap(), bytes);
}

#[test]
fn files_of_another_length_are_described() {
    for (name, length) in [("empty", 0), ("short", 1_001), ("long", saved::BYTES + 4_000)] {
        let (status, text, wrong) = told(&[file(name, &vec![1; length]).to_str().unwrap()]);
        assert_eq!((status, wrong.as_str()), (0, ""));
        assert!(text.contains(": WRONG LENGTH, "), "{text}");
    }
}

#[test]
fn wrong_arguments_are_told_with_what_was_wanted() {
    let sound = file("one", &[]);
    let sound = sound.to_str().unwrap();
    for (arguments, words) in [
        (&[][..], "the FILE of a saved hall is wanted"),
        (&["--all"], "the FILE of a saved hall is wanted"),
        (&["--everything", sound], "there is no flag --everything"),
        (&[sound, "-a"], "there is no flag -a"),
        (&[sound, sound], "one FILE is wanted"),
    ] {
        let (status, text, wrong) = told(arguments);
        assert_eq!((status, text.as_str()), (2, ""), "{arguments:?}");
        assert!(wrong.starts_with(&format!("describe: {words}")) && wrong.contains("usage: tools/describe [--all] FILE"), "{wrong}");
    }
}

#[test]
fn a_file_that_cannot_be_read_is_told() {
    for name in ["there/is/no/such/file", env!("CARGO_TARGET_TMPDIR"), ""] {
        let (status, text, wrong) = told(&[name]);
        assert_eq!((status, text.as_str()), (2, ""), "{name}");
        assert!(wrong.contains("cannot be read") && wrong.contains("the file of a saved hall is wanted"), "{wrong}");
    }
}

#[test]
fn help_is_given() {
    let (status, text, wrong) = told(&["--help"]);
    assert_eq!((status, wrong.as_str()), (0, ""));
    assert!(text.starts_with("usage: tools/describe [--all] FILE\n") && text.contains("--all"));
}
