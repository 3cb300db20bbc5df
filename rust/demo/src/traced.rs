//! Reads the trace that tools/demo-program.txt writes: for each call a line of nine numbers (what is done, the desk or k, the query; the reply's
//! number, count and ending), then for each number that is not 0 in a memory a line of three (memory, place, value); "end" at the end. The
//! program was compiled several ways, and each has written the whole. Leans on script and trace.

use crate::script::{Call, Item, K};
use crate::trace::{Hall, Trace, LEAST};
use twin::layout::{CLIENTS, CLIENT_ENTRY, NODES, NODE_COUNT};
use twin::query::Query;
use twin::Reply;

/// The one trace that the text holds, however often; or what is wrong with it.
pub fn read(text: &str) -> Result<Trace, String> {
    let (whole, rest) = text.rsplit_once("end\n").ok_or("the program did not write to its end")?;
    if !rest.is_empty() {
        return Err(format!("the program broke off at: {}", rest.lines().last().unwrap_or_default()));
    }
    let mut runs = whole.split("end\n");
    let first = runs.next().unwrap_or_default();
    if runs.any(|run| run != first) {
        return Err("the program, compiled several ways, did not do the same each time".to_string());
    }
    Trace::of_calls(calls(first)?).ok_or("the program did not make the calls that it was given".to_string())
}

fn calls(text: &str) -> Result<Vec<(Call, Reply, Hall)>, String> {
    let mut calls: Vec<(Call, Reply, Hall)> = Vec::new();
    for (i, line) in text.lines().enumerate() {
        let numbers: Option<Vec<u32>> = line.split(' ').map(|number| number.parse().ok()).collect();
        let understood = match (numbers.as_deref(), calls.last_mut()) {
            (Some(&[what, at, a, b, c, d, number, count, ending]), _) => Call::of_numbers([what, at, a, b, c, d]).map(|call| {
                calls.push((call, Reply { number, count, ending }, Hall::zeros()));
            }),
            (Some(&[memory, place, value]), Some((_, _, hall))) => store(hall, memory as usize, place as usize, value),
            _ => None,
        };
        understood.ok_or_else(|| format!("line {} of what the program wrote is not understood: {line}", i + 1))?;
    }
    match calls.iter().position(|(_, _, hall)| !is_sound(hall)) {
        Some(i) => Err(format!("the memories after call {} hold what no call leaves there", i + 1)),
        None => Ok(calls),
    }
}

/// What the words lean on: a count of nodes in range, and at each busy desk a query.
fn is_sound(hall: &Hall) -> bool {
    let holds_query = |desk| hall.desk(desk)[CLIENT_ENTRY..].first_chunk().is_some_and(|key| Query::kept(K, key).is_some());
    hall.nodes()[NODE_COUNT] as usize <= NODES && (0..CLIENTS as u32).all(|desk| hall.is_idle(desk) || holds_query(desk))
}

fn store(hall: &mut Hall, memory: usize, place: usize, value: u32) -> Option<()> {
    *hall.memories.get_mut(memory)?.get_mut(place)? = value;
    Some(())
}

/// A trace as the program writes it.
pub fn written(trace: &Trace) -> String {
    let mut text = String::new();
    for made in &trace.made {
        let Reply { number, count, ending } = made.reply;
        let call = Item::Call(made.call).numbers();
        let line: Vec<String> = call.into_iter().chain([number, count, ending]).map(|n| n.to_string()).collect();
        text += &(line.join(" ") + "\n");
        for memory in 0..LEAST.len() {
            for (place, value) in made.hall.memories[memory].iter().enumerate().filter(|(_, value)| **value != 0) {
                text += &format!("{memory} {place} {value}\n");
            }
        }
    }
    text + "end\n"
}
