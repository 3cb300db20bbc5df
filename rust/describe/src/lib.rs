//! A saved hall as text, in the words of docs/LAYOUT.md and document 01. Unproved, but for the numbers that calls would give: those are the proved
//! calls', made on copies. Leans on inside (what lies in the memories) and tried (the calls).
mod inside;
mod tried;

use mondzafeky::inspect::Inspect;
use mondzafeky::saved;

/// How many records are told unless all are asked for.
pub const FEW: usize = 16;

/// The bytes of a saved hall as text. They may be of any length and contents; what is missing or out of range is said.
#[must_use]
pub fn describe(bytes: &[u8], all: bool) -> String {
    let numbers = saved::numbers_of(bytes);
    let hall = Inspect::of_saved(&numbers);
    let mut lines = form(bytes.len());
    let marked = if all { "Nodes, oldest first" } else { "Marked nodes, oldest first (all with --all)" };
    for (title, section) in [
        ("Sizes", inside::sizes(&hall)),
        ("Desks", inside::desks(&hall)),
        ("Calls, tried on copies", tried::calls(&numbers, &hall)),
        (marked, inside::nodes(&hall, all)),
        ("Answers, oldest first", inside::answers(&hall, all)),
        ("Records", inside::records(&hall, all)),
    ] {
        lines.push(String::new());
        lines.push(title.to_string());
        lines.extend(section.into_iter().map(|line| format!("  {line}")));
    }
    lines.join("\n") + "\n"
}

/// Whether the bytes are as many as a saved hall has.
fn form(length: usize) -> Vec<String> {
    let wanted = "a saved hall has 113,600: 28,400 numbers of 4 bytes";
    if length == saved::BYTES {
        return vec!["a saved hall, 113,600 bytes".to_string()];
    }
    if length > saved::BYTES {
        return vec![format!("WRONG LENGTH, more than 113,600 bytes; {wanted}; what follows those is left out")];
    }
    let mut lines = vec![format!("WRONG LENGTH, {length} bytes; {wanted}; described as far as it goes")];
    match length % 4 {
        0 => {}
        left => lines.push(format!("left out at its end: {left} of the 4 bytes of a number")),
    }
    lines
}
