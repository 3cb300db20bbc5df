//! What lies in the memories, section by section, each line by line. Leans on mondzafeky's inspect.
use crate::FEW;
use mondzafeky::inspect::{Entry, Inspect, OutOfRange, Value, Work};
use mondzafeky::{Query, Records, CLIENTS};

/// A value as text, or what is out of range.
fn told<T: ToString>(value: Result<T, OutOfRange>) -> String {
    value.map_or_else(|fault| fault.to_string(), |value| value.to_string())
}

/// k, how many records, nodes and answers there are, the floor; and what a wrong k may come from.
pub fn sizes(hall: &Inspect<'_>) -> Vec<String> {
    let (marked, there) = (hall.nodes().flatten().filter(|node| node.pending > 0).count(), hall.nodes().flatten().count());
    let nodes = |n: u32| {
        let among = if there < n as usize { format!(" among the {there} that can be read") } else { String::new() };
        format!("{n} of 1,024, {marked} marked{among}")
    };
    let mut lines = vec![
        format!("k        {}", told(hall.columns())),
        format!("records  {}", told(hall.record_count().map(|n| format!("{n} of 2,048")))),
        format!("nodes    {}", told(hall.node_count().map(nodes))),
        format!("answers  {}", told(hall.answer_count().map(|n| format!("{n} of 64")))),
        format!("floor    {}", told(hall.floor())),
    ];
    match hall.columns().err().and_then(|fault| fault.found) {
        Some(0) => lines.push("k is 0 before the opening: a begin would give 2, columns, every other call but opening 3, unsound".to_string()),
        Some(k) if (1..=4).contains(&k.swap_bytes()) => {
            lines.push(format!("with the highest byte first k would be {}: the numbers may have been saved in the other order", k.swap_bytes()));
        }
        _ => {}
    }
    lines
}

/// The busy desks and how far they are.
pub fn desks(hall: &Inspect<'_>) -> Vec<String> {
    let works: Vec<_> = (0..CLIENTS).map(|client| (client, hall.work(client))).filter(|(_, work)| *work != Ok(None)).collect();
    let idle = CLIENTS as usize - works.len();
    let mut lines: Vec<String> = match hall.columns() {
        // The same would be said of each.
        Err(fault) if works.len() > 1 => {
            let which: Vec<u32> = works.iter().map(|(client, _)| *client).collect();
            vec![format!("desks {}: {fault}", spaced(&which))]
        }
        _ => works.into_iter().map(|(client, work)| format!("desk {client}: {}", told(work.map(desk)))).collect(),
    };
    match idle {
        0 => {}
        12 => lines.push("all 12 are idle".to_string()),
        1 => lines.push("the other one is idle".to_string()),
        _ => lines.push(format!("the other {idle} are idle")),
    }
    lines
}

/// What is under way at a desk, and what its steps have found.
fn desk(work: Option<Work>) -> String {
    let Some(work) = work else { return "idle".to_string() };
    let found =
        [(work.saw_pending, "a look has seen a mark"), (work.changed, "it has changed the table"), (work.full, "it has found the table full")];
    let mut text = work.to_string();
    found.into_iter().filter(|(is, _)| *is).for_each(|(_, words)| text += &format!("; {words}"));
    if !work.noted.is_empty() {
        text += &format!("; revisions noted: {}", spaced(&work.noted));
    }
    text
}

/// The nodes: all of them, or those with marks.
pub fn nodes(hall: &Inspect<'_>, all: bool) -> Vec<String> {
    let mut lines = Vec::new();
    for (place, node) in hall.nodes().enumerate() {
        match node {
            Ok(node) if all || node.pending > 0 => lines.push(format!("{place}: {node}")),
            Ok(_) => {}
            Err(fault) => lines.push(fault.to_string()),
        }
    }
    or_none(lines)
}

/// The filed answers, counts as such, a range in the place of its column; with the records of the
/// lists if all is asked for.
pub fn answers(hall: &Inspect<'_>, all: bool) -> Vec<String> {
    let lines = hall.answers().enumerate().map(|(place, answer)| match answer {
        Ok(entry) => format!("{place}: {}", answer_line(entry, all)),
        Err(fault) => fault.to_string(),
    });
    or_none(lines.collect())
}

fn answer_line(entry: Entry<'_>, all: bool) -> String {
    // Where k is out of range, both have that to say.
    if let (Err(fault), Err(other)) = (&entry.query, &entry.value) {
        if fault == other {
            return format!("revisions {}  {fault}", spaced(entry.revisions));
        }
    }
    let asked = told(entry.asked());
    let value = told(entry.value.map(|value| match value {
        Value::List(records) => listed(records, all),
        Value::Count(count) => format!("count {count}"),
    }));
    format!("{asked}  revisions {}  {value}", spaced(entry.revisions))
}

/// A filed list: how many records, and which if all is asked for.
fn listed(records: Records<'_>, all: bool) -> String {
    let count = format!("{} record{}", records.len(), if records.len() == 1 { "" } else { "s" });
    let which: String = records.map(|record| format!(" {}", Query::of_record(record))).collect();
    if all && !which.is_empty() {
        format!("{count}:{which}")
    } else {
        count
    }
}

/// The records as they lie in the table; of one that is not above the one before it, that it is not.
pub fn records(hall: &Inspect<'_>, all: bool) -> Vec<String> {
    let most = if all { usize::MAX } else { FEW };
    let (mut lines, mut before) = (Vec::new(), None);
    for (place, record) in hall.records().enumerate().take(most) {
        match record {
            Ok(record) => {
                let falls = before.is_some_and(|before| before >= record);
                lines.push(format!("{place}: {}{}", Query::of_record(record), if falls { "  NOT ASCENDING: no history leaves it here" } else { "" }));
                before = Some(record);
            }
            Err(fault) => lines.push(fault.to_string()),
        }
    }
    let more = hall.record_count().unwrap_or(0) as usize;
    if more > lines.len() && lines.len() == most {
        lines.push(format!("and {} more (all with --all)", more - lines.len()));
    }
    or_none(lines)
}

fn or_none(lines: Vec<String>) -> Vec<String> {
    if lines.is_empty() {
        vec!["none".to_string()]
    } else {
        lines
    }
}

fn spaced(numbers: &[u32]) -> String {
    numbers.iter().map(u32::to_string).collect::<Vec<_>>().join(" ")
}
