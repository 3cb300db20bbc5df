//! What calls would give: a renewal, a step and an abandoning at each desk, and the begin of a
//! write, each made on a copy of the memories. Leans on mondzafeky.
use mondzafeky::inspect::Inspect;
use mondzafeky::{ending, number, saved, Memories, Reply, CLIENTS, TRAY_LEAST};

/// The reply of one call on a copy of these numbers.
fn on_copy(numbers: &[u32], call: impl FnOnce(&mut Memories<'_>) -> Reply) -> Reply {
    call(&mut saved::memories(&mut numbers.to_vec()))
}

/// A line for each call that is tried; desks that would give the same are told together.
pub fn calls(numbers: &[u32], hall: &Inspect<'_>) -> Vec<String> {
    let mut lines = vec![format!("a renewal would give {}", numbered(on_copy(numbers, |m| m.renew())))];
    let steps = at_desks(|client| on_copy(numbers, |m| m.step(&mut [0; TRAY_LEAST], client)));
    lines.extend(told(hall, "a step", &steps, ""));
    let abandonings = at_desks(|client| on_copy(numbers, |m| m.abandon(client)));
    lines.extend(told(hall, "an abandoning", &abandonings, "; nothing would be left of what is under way"));
    let idle = steps.iter().position(|reply| reply.number == number::IDLE);
    if let (Some(client), Ok(columns)) = (idle, hall.columns()) {
        let stars = vec![0; 2 * columns as usize];
        let begin = on_copy(numbers, |m| m.begin_delete(client as u32, &stars));
        lines.push(format!("a write begun at desk {client} would give {}", numbered(begin)));
    }
    lines
}

/// What a call at each desk replies.
fn at_desks(call: impl Fn(u32) -> Reply) -> Vec<Reply> {
    (0..CLIENTS).map(call).collect()
}

/// What a call at each desk would give, by its replies: in one line if it is the same at all of
/// them, and the idle ones in one line in any case. `without_end`: what is said of an accepted call
/// that ends nothing.
fn told(hall: &Inspect<'_>, call: &str, replies: &[Reply], without_end: &str) -> Vec<String> {
    let given = |(client, reply): (u32, &Reply)| numbered(*reply) + &ended(*reply, counts(hall, client), without_end);
    let gives: Vec<String> = (0..).zip(replies).map(given).collect();
    if gives.iter().all(|given| *given == gives[0]) {
        return vec![format!("{call} at any desk would give {}", gives[0])];
    }
    let is_idle = |client: usize| replies[client].number == number::IDLE;
    let busy = gives.iter().enumerate().filter(|(client, _)| !is_idle(*client));
    let mut lines: Vec<String> = busy.map(|(client, given)| format!("{call} at desk {client} would give {given}")).collect();
    if lines.len() < replies.len() {
        lines.push(format!("{call} at any other desk would give 6, idle"));
    }
    lines
}

/// Whether a count is under way at a desk, which a reply does not tell.
fn counts(hall: &Inspect<'_>, client: u32) -> bool {
    matches!(hall.work(client), Ok(Some(work)) if work.counts)
}

/// The number and its word.
fn numbered(reply: Reply) -> String {
    format!("{}, {}", reply.number, number::name(reply.number))
}

/// What would have ended with a step or an abandoning, of a count or of something else.
fn ended(reply: Reply, counts: bool, without_end: &str) -> String {
    let (read, records) = if counts { ("count", "") } else { ("read", " records") };
    let answered = |place: &str| format!("; the {read} would end with {}{records} from {place}", reply.count);
    match reply.ending {
        ending::FROM_FILE => answered("file"),
        ending::FROM_TABLE => answered("the table"),
        ending::CHANGED => "; the write would end, and has changed the table".to_string(),
        ending::UNCHANGED => "; the write would end, and has not changed the table".to_string(),
        _ if reply.number == number::ACCEPTED => without_end.to_string(),
        _ => String::new(),
    }
}
