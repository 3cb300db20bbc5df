//! Reading what the program of Rattle writes: the trace comes back as it was, and what is no trace is refused with what is wrong.

use demo::controller::{FAULTY, SOUND};
use demo::script::{as_text, script};
use demo::trace::Trace;
use demo::traced::{read, written};

#[test]
fn a_trace_that_was_written_is_read_back() {
    for trace in [Trace::play(&SOUND), Trace::play(&FAULTY)] {
        let text = written(&trace);
        assert!(read(&text).unwrap() == trace);
        assert!(read(&text.repeat(3)).unwrap() == trace);
    }
}

#[test]
fn the_script_is_a_line_of_six_numbers_for_each_item() {
    let text = as_text();
    assert_eq!(text.lines().count(), script().len());
    assert!(text.lines().all(|line| line.split(' ').filter(|number| number.parse::<u32>().is_ok()).count() == 6));
    assert!(text.starts_with("0 2 0 0 0 0\n2 0 1 7 1 40\n5 0 0 0 0 0\n3 0 1 7 1 40\n"));
}

fn complaint(text: &str) -> String {
    read(text).expect_err("this is no trace")
}

#[test]
fn what_is_no_trace_is_refused() {
    let text = written(&Trace::play(&SOUND));
    let other = written(&Trace::play(&FAULTY));
    assert_eq!(complaint(""), "the program did not write to its end");
    assert_eq!(complaint(&text[..text.len() - 4]), "the program did not write to its end");
    assert!(complaint(&(text.clone() + "0 2 0")).starts_with("the program broke off at: 0 2 0"));
    assert!(complaint(&(text.clone() + &other)).contains("did not do the same each time"));
    assert!(complaint(&text.replacen("0 2 0 0 0 0 0 0 0\n", "0 2 zero\n", 1)).starts_with("line 1 of what the program wrote is not understood"));
    assert!(complaint(&text.replacen("0 2 0 0 0 0 0 0 0\n", "", 1)).starts_with("line 1 of"));
    assert!(complaint(&text.replacen("3 0 2\n", "5 0 2\n", 1)).starts_with("line "));
    assert!(complaint(&text.replacen("1 0 1\n", "1 0 1\n1 1 1025\n", 1)).contains("hold what no call leaves there"));
}

#[test]
fn calls_that_are_not_the_scripts_are_refused() {
    let mut trace = Trace::play(&SOUND);
    let last = trace.made.pop().unwrap();
    assert!(complaint(&written(&trace)).contains("did not make the calls that it was given"));
    trace.made.extend([last.clone(), last]);
    assert!(complaint(&written(&trace)).contains("did not make the calls that it was given"));
}
