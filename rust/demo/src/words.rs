//! What a call saw and did, in the words of docs/LAYOUT.md, told by what it changed in the memories. Leans on trace and on the twin's layout,
//! labels and nodes.

use crate::script::{Call, Kind, K};
use crate::trace::{Hall, Made};
use twin::layout::*;
use twin::nodes;
use twin::query::Query;

type Node = [u32; NODE_WIDTH];

/// Column texts as (7, *).
fn columns(texts: impl Iterator<Item = String>) -> String {
    format!("({})", texts.collect::<Vec<_>>().join(", "))
}

pub fn query_text(query: &Query) -> String {
    columns((0..query.k).map(|c| if query.names(c) { query.values[c].to_string() } else { "*".to_string() }))
}

/// A node's name: its tags say of each column whether it is a value, a star or a ?.
pub fn label_text(label: &[u32]) -> String {
    columns((0..K).map(|c| match label[0] >> (8 * c) & 0xff {
        TAG_VALUE => label[1 + c].to_string(),
        TAG_WILDCARD => "*".to_string(),
        _ => "?".to_string(),
    }))
}

pub fn records_text(records: &[[u32; K]]) -> String {
    let texts: Vec<String> = records.iter().map(|record| columns(record.iter().map(u32::to_string))).collect();
    if texts.is_empty() {
        "no record".to_string()
    } else {
        texts.join(", ")
    }
}

/// The records of the table memory.
pub fn table_records(hall: &Hall) -> &[[u32; K]] {
    hall.table()[HEAD..].as_chunks().0.get(..hall.table()[COUNT] as usize).unwrap_or_default()
}

/// The records of an entry, filed or held by a desk.
pub fn entry_records(entry: &[u32]) -> &[[u32; K]] {
    entry[ENTRY_LIST..].as_chunks().0.get(..entry[ENTRY_LENGTH] as usize).unwrap_or_default()
}

/// The filed answers.
pub fn entries(hall: &Hall) -> &[[u32; ENTRY_WIDTH]] {
    hall.answers()[HEAD..].as_chunks().0.get(..hall.answers()[COUNT] as usize).unwrap_or_default()
}

/// The counters that a desk or a filed answer holds for a query's looks: "3 and 1".
pub fn counters_text(entry: &[u32], looks: u32) -> String {
    let counters = &entry[ENTRY_REVISIONS..][..looks as usize];
    counters.iter().map(u32::to_string).collect::<Vec<_>>().join(" and ")
}

fn counted(number: u32, one: &str, many: &str) -> String {
    match number {
        0 => format!("no {one}"),
        1 => format!("1 {one}"),
        _ => format!("{number} {many}"),
    }
}

/// What a call saw and did. `before` is the hall before it.
pub fn told(before: &Hall, made: &Made) -> String {
    match made.call {
        Call::Open { k } => format!("opens a hall of {k} columns"),
        _ if made.reply.number != 0 => format!("gets number {}: docs/CALLS.md says what it means", made.reply.number),
        Call::Begin { kind, asked, .. } => {
            let name = match kind {
                Kind::Read => "read",
                Kind::Insert => "insert",
                Kind::Delete => "delete",
            };
            format!("begins the {name} of {}", query_text(&Query::arrived(K, &asked)))
        }
        Call::Step { desk } if before.desk(desk)[CLIENT_KIND] == READ => read_step(before, made, desk),
        Call::Step { desk } => write_step(before, made, desk),
    }
}

// ---- A read

/// The query under way at a desk.
fn query_at(hall: &Hall, desk: u32) -> Query {
    let entry = hall.desk(desk)[CLIENT_ENTRY..].first_chunk().expect("a desk has its key");
    Query::kept(K, entry).expect("a begin was accepted here")
}

fn read_step(before: &Hall, made: &Made, desk: u32) -> String {
    let (query, steps) = (query_at(before, desk), before.desk(desk)[CLIENT_STEPS]);
    let (looks, own) = (query.looks(), before.desk(desk));
    let answer = records_text(made.hall.tray().as_chunks().0.get(..made.reply.count as usize).unwrap_or_default());
    match (steps.checked_sub(looks), made.reply.ending) {
        (None, _) => look(&made.hall, &query, steps),
        (Some(0), 1) => format!("asks the file: {answer} is filed under counters that still hold. Answers {answer}, from file"),
        (Some(0), _) => not_from_file(before, &query, own),
        (Some(1), 2) => format!("table: takes the list {answer}. Answers {answer}; files nothing, because a look saw a mark"),
        (Some(1), _) => format!("table: takes the list {}", records_text(entry_records(&made.hall.desk(desk)[CLIENT_ENTRY..]))),
        _ => {
            let noted = counters_text(&own[CLIENT_ENTRY..], looks);
            format!("files {answer} under the counters {noted} it noted{}. Answers {answer}", though(before, &query, &answer))
        }
    }
}

/// Where the table has changed since the list was taken.
fn though(hall: &Hall, query: &Query, list: &str) -> String {
    let lies = |record: &&[u32; K]| (0..K).all(|c| !query.names(c) || query.values[c] == record[c]);
    let now = records_text(&table_records(hall).iter().filter(lies).copied().collect::<Vec<_>>());
    if now == list {
        String::new()
    } else {
        format!(", though the table has {now} by now")
    }
}

fn look(after: &Hall, query: &Query, number: u32) -> String {
    let label = query.read_label(number);
    match nodes::find(after.nodes(), &label).map(|place| nodes::all(after.nodes())[place]) {
        Some(node) => {
            let marks = counted(node[NODE_PENDING], "mark", "marks");
            format!("looks at {}: counter {}, {marks}", label_text(&label), node[NODE_REVISION])
        }
        None => format!("looks at {}", label_text(&label)),
    }
}

/// Why a fetch did not answer.
fn not_from_file(before: &Hall, query: &Query, own: &[u32]) -> String {
    if own[CLIENT_SAW] != 0 {
        return "leaves the file alone, because a look saw a mark".to_string();
    }
    let noted = counters_text(&own[CLIENT_ENTRY..], query.looks());
    match entries(before).iter().find(|entry| entry[..KEY_WIDTH] == query.key()) {
        None => format!("asks the file: nothing is filed for {}", query_text(query)),
        Some(entry) => {
            let filed = counters_text(entry, query.looks());
            format!("asks the file: {} is filed under {filed}, the counters are {noted} now: it no longer holds", records_text(entry_records(entry)))
        }
    }
}

// ---- A write

fn write_step(before: &Hall, made: &Made, desk: u32) -> String {
    let end = if matches!(made.reply.ending, 3 | 4) { "; the write has ended" } else { "" };
    let own = before.desk(desk);
    let did = match changed_node(before, &made.hall) {
        Some((old, new)) => at_node(&old, &new),
        None if own[CLIENT_STEPS] == query_at(before, desk).announcements() => at_table(before, &made.hall),
        None => "has nothing left to raise".to_string(),
    };
    did + end
}

/// The node that a step has changed or added, before and after. No node is put out here, so places stay.
fn changed_node(before: &Hall, after: &Hall) -> Option<(Node, Node)> {
    let (old, new) = (nodes::all(before.nodes()), nodes::all(after.nodes()));
    let place = (0..new.len()).find(|i| old.get(*i) != Some(&new[*i]))?;
    let mut missing = new[place];
    missing[NODE_PENDING] = 0;
    missing[NODE_REVISION] = before.nodes()[FLOOR];
    Some((old.get(place).copied().unwrap_or(missing), new[place]))
}

fn at_node(old: &Node, new: &Node) -> String {
    let (name, marks, counter) = (label_text(new), new[NODE_PENDING], new[NODE_REVISION]);
    match (counter > old[NODE_REVISION], marks > old[NODE_PENDING]) {
        (false, true) => format!("marks {name}: {} under way there", counted(marks, "write", "writes")),
        (true, _) if marks < old[NODE_PENDING] => format!("raises {name}: counter {counter}, {} left", counted(marks, "mark", "marks")),
        (true, _) => format!("raises {name} already: counter {counter}"),
        _ => format!("leaves {name} with counter {counter}, {}", counted(marks, "mark", "marks")),
    }
}

fn at_table(before: &Hall, after: &Hall) -> String {
    let (old, new) = (table_records(before), table_records(after));
    let only_in = |some: &[[u32; K]], others: &[[u32; K]]| some.iter().filter(|r| !others.contains(r)).copied().collect::<Vec<_>>();
    let (out, put) = (only_in(old, new), only_in(new, old));
    match (out.is_empty(), put.is_empty()) {
        (false, _) => format!("table: takes {} out", records_text(&out)),
        (_, false) => format!("table: puts {} in", records_text(&put)),
        _ => "table: nothing to change".to_string(),
    }
}
