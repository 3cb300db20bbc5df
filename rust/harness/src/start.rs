//! The memories that calls start from: noise of four sorts, halls near every limit, and what damage does to a hall.
//! Leans on hall and the twin's layout and queries.

use crate::call::Call;
use crate::draw::plain_query;
use crate::hall::{Hall, LEAST, TALLY};
use crate::rng::Rng;
use twin::layout::*;
use twin::query::{Label, Query};
use twin::range::Range;
use twin::PLAIN;

/// Numbers at which something changes.
const EDGES: [u32; 24] = [0, 1, 2, 3, 4, 5, 11, 12, 13, 31, 32, 33, 63, 64, 65, 1023, 1024, 1025, 2047, 2048, 2049, WORN, WORN + 1, u32::MAX];

/// Each memory a little longer than its least length, so that writing past it would show.
fn long_lengths(rng: &mut Rng) -> [usize; 4] {
    LEAST.map(|least| least + rng.below(9) as usize)
}

/// Noise: any numbers, small ones, or a mix with the edges.
pub fn noise(rng: &mut Rng) -> Hall {
    let mut hall = Hall::zeros(long_lengths(rng));
    for memory in &mut hall.memories {
        let style = rng.below(3);
        for number in memory.iter_mut() {
            *number = speckle(rng, style);
        }
    }
    hall
}

fn speckle(rng: &mut Rng, style: u32) -> u32 {
    match style {
        0 => rng.any(),
        1 => rng.below(5),
        _ if rng.chance(1, 3) => rng.any(),
        _ => rng.pick(&EDGES),
    }
}

fn count_below(rng: &mut Rng, most: usize) -> u32 {
    match rng.below(5) {
        0 => most as u32,
        1 => most as u32 - 1,
        2 => rng.below(4),
        _ => rng.below(most as u32 + 1),
    }
}

/// Noise, plain or with order in it: of four sorts; in a few of them k is just out of range.
pub fn any_noise(rng: &mut Rng) -> Hall {
    let mut hall = match rng.below(8) {
        0 => noise(rng),
        1 => sound_headers(rng),
        2 => idle_clients(rng),
        _ => plausible_clients(rng),
    };
    if rng.chance(1, 32) {
        hall.memories[3][COLUMNS] = rng.pick(&[0, 5]);
    }
    hall
}

/// The most that the length of an entry may be whose key begins like this: a count's, or a list's.
fn most(first: u32) -> u32 {
    if first & COUNT_BIT != 0 {
        RECORDS as u32
    } else {
        LIST as u32
    }
}

/// A length for an entry whose key begins like this.
fn length_for(rng: &mut Rng, first: u32) -> u32 {
    count_below(rng, most(first) as usize)
}

/// The numbers of a filed answer.
fn entry_at(hall: &mut Hall, place: usize) -> &mut [u32] {
    &mut hall.memories[2][HEAD + place * ENTRY_WIDTH..][..ENTRY_WIDTH]
}

/// Noise in which k, the entry counts and (but for a few) the lengths of filed lists and counts are in range.
fn sound_headers(rng: &mut Rng) -> Hall {
    let mut hall = noise(rng);
    hall.memories[3][COLUMNS] = 1 + rng.below(4);
    hall.memories[0][COUNT] = count_below(rng, RECORDS);
    hall.memories[1][NODE_COUNT] = count_below(rng, NODES);
    hall.memories[2][COUNT] = count_below(rng, ANSWERS);
    for place in 0..ANSWERS {
        let entry = entry_at(&mut hall, place);
        entry[0] ^= if rng.chance(1, 4) { COUNT_BIT } else { 0 };
        entry[ENTRY_LENGTH] = length_for(rng, entry[0]);
    }
    if rng.chance(1, 16) {
        let newest = hall.get(2, COUNT).saturating_sub(1);
        let any = rng.below(64);
        let place = rng.pick(&[0, newest, any]) as usize;
        let entry = entry_at(&mut hall, place);
        entry[ENTRY_LENGTH] = most(entry[0]) + 1;
    }
    hall
}

/// Noise with sound headers in which every client (desk) is idle, but for one number of one client in some.
fn idle_clients(rng: &mut Rng) -> Hall {
    let mut hall = sound_headers(rng);
    hall.memories[3][HEAD..HEAD + CLIENTS * CLIENT_WIDTH].fill(0);
    if rng.chance(1, 2) {
        let own = HEAD + rng.below(CLIENTS as u32) as usize * CLIENT_WIDTH;
        let last = CLIENT_WIDTH as u32 - 1;
        let at = if rng.chance(1, 3) { last } else { rng.below(last) };
        hall.memories[3][own + at as usize] = 1 + rng.below(3);
    }
    hall
}

/// Noise with sound headers in which each client is idle or in the midst of a read or a write, with what it needs around it.
fn plausible_clients(rng: &mut Rng) -> Hall {
    let mut hall = sound_headers(rng);
    for client in 0..12 {
        if rng.chance(2, 3) {
            seat(rng, &mut hall, client);
        } else {
            hall.memories[3][HEAD + client * CLIENT_WIDTH..][..CLIENT_WIDTH].fill(0);
        }
    }
    hall
}

/// A client in the midst of a read or a write. Its other numbers stay as they are.
fn seat(rng: &mut Rng, hall: &mut Hall, client: usize) {
    let k = hall.columns();
    let kind = 1 + rng.below(3);
    let asked = plain_query(rng, k, 3, if kind == INSERT { 16 } else { 10 });
    let plain = Query::arrived(k as usize, asked.words());
    let query = if kind == READ { Query { counts: rng.chance(1, 2), range: range_for(rng, &plain), ..plain } } else { plain };
    let last = if kind == READ { query.looks() + 3 } else { 2 * query.announcements() + 1 };
    let steps = if rng.chance(1, 3) { last - 1 - rng.below(last.min(3)) } else { rng.below(last) };
    let place = HEAD + client * CLIENT_WIDTH;
    let own = &mut hall.memories[3][place..place + CLIENT_WIDTH];
    own[CLIENT_KIND] = kind;
    own[CLIENT_STEPS] = steps;
    for flag in [CLIENT_SAW, CLIENT_FULL] {
        own[flag] = rng.pick(&[0, 0, 0, 1, 2]);
    }
    own[CLIENT_CHANGED] = rng.pick(&[0, 0, 1, 1, 2]);
    own[CLIENT_ENTRY..CLIENT_ENTRY + KEY_WIDTH].copy_from_slice(&query.key());
    own[CLIENT_ENTRY + ENTRY_LENGTH] = length_for(rng, own[CLIENT_ENTRY]);
    if rng.chance(1, 8) {
        spoil(rng, &mut hall.memories[3][place..place + CLIENT_WIDTH], last);
    } else if kind == READ {
        seat_read(rng, hall, place, &query);
    } else {
        seat_write(rng, hall, &query, steps);
    }
}

/// For some queries with a star in the column that is drawn, a range of it.
fn range_for(rng: &mut Rng, query: &Query) -> Option<Range> {
    let column = rng.below(query.k as u32);
    let (lowest, highest) = (rng.below(3), rng.pick(&[2, 3, 40, u32::MAX]));
    (!query.names(column as usize) && rng.chance(2, 3)).then_some(Range { column, lowest, highest })
}

/// One number of a desk just out of range: kind, step, length, or one of the key. (A reader's that gets or loses the bit of a count, or
/// whose range is another, may be in range still.)
fn spoil(rng: &mut Rng, own: &mut [u32], last: u32) {
    let (place, value) = match rng.below(14) {
        8.. => {
            let (at, value) = spoilt_range(rng, &own[CLIENT_ENTRY..]);
            (CLIENT_ENTRY + at, value)
        }
        7 => (CLIENT_ENTRY, own[CLIENT_ENTRY] ^ COUNT_BIT),
        0 => (CLIENT_KIND, rng.pick(&[0, 4])),
        6 => {
            // a star, which an insert has not
            own[CLIENT_ENTRY + 1] = 0;
            (CLIENT_ENTRY, own[CLIENT_ENTRY] & !1)
        }
        1 => (CLIENT_STEPS, last),
        2 => (CLIENT_ENTRY + ENTRY_LENGTH, most(own[CLIENT_ENTRY]) + 1),
        3 => (CLIENT_ENTRY, own[CLIENT_ENTRY] ^ 1 << rng.below(9)),
        4 => (CLIENT_ENTRY + 1 + rng.below(4) as usize, 1 + rng.below(3)),
        _ => (CLIENT_ENTRY + 5 + rng.below(2) as usize, 1),
    };
    own[place] = value;
}

/// A number of a key that is its range's or gives it one: its place in the key, and another number, on either side of what is in range.
fn spoilt_range(rng: &mut Rng, key: &[u32]) -> (usize, u32) {
    let (first, lowest, highest) = (key[0], key[KEY_LOWEST], key[KEY_HIGHEST]);
    let column = (first / RANGE_UNIT).saturating_sub(1) % 4;
    match rng.below(8) {
        0 => (0, first % RANGE_UNIT + RANGE_UNIT * rng.below(7)),
        1 => (0, first.wrapping_add(RANGE_UNIT)),
        2 => (0, first | 1 << column),
        3 => (KEY_LOWEST, highest.wrapping_add(1)),
        4 => (KEY_LOWEST, highest),
        5 => (KEY_HIGHEST, lowest.wrapping_sub(1)),
        6 => (KEY_HIGHEST, lowest),
        _ => (0, first ^ RANGE_UNIT << rng.below(27)),
    }
}

/// Some of a read's nodes are there, marked or not. Some reads find answers filed under their key, one or several, with revisions near those
/// noted; or under the key of a count where a list is wanted, and the other way round; or under one whose range is another or senseless.
fn seat_read(rng: &mut Rng, hall: &mut Hall, place: usize, query: &Query) {
    for number in 0..query.looks() {
        if rng.chance(1, 4) {
            let marks = rng.pick(&[0, 0, 0, 1]);
            put_node(rng, hall, &query.read_label(number), marks);
        }
    }
    let count = hall.get(2, COUNT);
    if count == 0 {
        return;
    }
    let noted: Vec<u32> = hall.memories[3][place + CLIENT_ENTRY + ENTRY_REVISIONS..][..16].to_vec();
    for _ in 0..rng.below(4) {
        let entry = &mut hall.memories[2][HEAD + rng.below(count) as usize * ENTRY_WIDTH..][..ENTRY_WIDTH];
        entry[..KEY_WIDTH].copy_from_slice(&query.key());
        entry[0] ^= if rng.chance(1, 4) { COUNT_BIT } else { 0 };
        entry[ENTRY_LENGTH] = length_for(rng, entry[0]);
        if rng.chance(1, 6) {
            let (at, value) = spoilt_range(rng, entry);
            entry[at] = value;
        }
        for (filed, noted) in entry[ENTRY_REVISIONS..ENTRY_LIST].iter_mut().zip(&noted) {
            *filed = noted.saturating_add(rng.pick(&[0, 0, 0, 1]));
        }
        if rng.chance(1, 2) {
            let filed = &mut entry[ENTRY_REVISIONS + rng.below(query.looks()) as usize];
            *filed = filed.saturating_sub(1 + rng.below(2));
        }
    }
}

/// The nodes that a write has announced itself at and not raised are there, marked.
fn seat_write(rng: &mut Rng, hall: &mut Hall, query: &Query, steps: u32) {
    let announcements = query.announcements();
    let first = steps.saturating_sub(announcements + 1);
    for number in first..steps.min(announcements).max(first + 1).min(announcements) {
        if rng.chance(15, 16) {
            put_node(rng, hall, &query.write_label::<PLAIN>(number), 1);
        }
    }
}

/// A node with this label gets so many marks more; one is written over if it is missing.
fn put_node(rng: &mut Rng, hall: &mut Hall, label: &Label, marks: u32) {
    let count = hall.get(1, NODE_COUNT);
    if count == 0 {
        return;
    }
    let nodes = &mut hall.memories[1];
    let found = twin::nodes::find(nodes, label);
    let place = found.unwrap_or(rng.below(count) as usize);
    let node = &mut nodes[HEAD + place * NODE_WIDTH..][..NODE_WIDTH];
    if found.is_none() {
        node[..LABEL_WIDTH].copy_from_slice(label);
        node[NODE_PENDING] = 0;
    }
    node[NODE_PENDING] = node[NODE_PENDING].saturating_add(marks);
    if rng.chance(1, 12) {
        // a second node with this label
        let again = HEAD + rng.below(count) as usize * NODE_WIDTH;
        nodes[again..again + LABEL_WIDTH].copy_from_slice(label);
    }
}

/// A hall near its limits: records, nodes, answers, marks and counters on either side of a line.
pub fn near_limits(rng: &mut Rng) -> Hall {
    let mut hall = Hall::zeros(long_lengths(rng));
    hall.memories[3][COLUMNS] = 1 + rng.below(4);
    hall.memories[1][FLOOR] = 1;
    fill_table(rng, &mut hall);
    fill_nodes(rng, &mut hall);
    fill_answers(rng, &mut hall);
    if rng.chance(2, 3) {
        for client in 0..rng.below(12) as usize {
            seat(rng, &mut hall, client);
        }
    }
    set_revisions(rng, &mut hall);
    if hall.get(1, NODE_COUNT) > 0 && rng.chance(1, 2) {
        // every write comes to the node of all stars, or to one of its neighbours
        let wildcards = Query::arrived(hall.columns() as usize, &[0; 8][..2 * hall.columns() as usize]).read_label(0);
        put_node(rng, &mut hall, &wildcards, 1);
        let place = twin::nodes::find(hall.nodes(), &wildcards).unwrap();
        hall.memories[1][HEAD + place * NODE_WIDTH + NODE_PENDING] = 9 + rng.below(5);
    }
    hall
}

/// Ascending records; a first column that is the same for 31 to 33 of them, or for all. Values begin at 1, or at 0, which is found by no name.
fn fill_table(rng: &mut Rng, hall: &mut Hall) {
    let k = hall.columns() as usize;
    let least = rng.pick(&[0, 1, 1, 1]);
    let count = rng.pick(&[0, 31, 32, 33, 2046, 2047, 2048]);
    let group = rng.pick(&[31, 32, 33, 64, 4000]);
    hall.memories[0][COUNT] = count;
    for i in 0..count {
        let record = &mut hall.memories[0][HEAD + i as usize * k..][..k];
        record.fill(least);
        if k == 1 {
            record[0] += i;
        } else {
            record[0] += i / group;
            record[k - 1] += i % group;
        }
    }
}

/// Nodes whose labels differ, free of pending writes, or with one, or both.
fn fill_nodes(rng: &mut Rng, hall: &mut Hall) {
    let count = rng.pick(&[0, 3, 40, 1008, 1022, 1023, 1024]);
    let free = rng.pick(&[0, 1, 8, 16]);
    hall.memories[1][NODE_COUNT] = count;
    for i in 0..count {
        let node = &mut hall.memories[1][HEAD + i as usize * NODE_WIDTH..][..NODE_WIDTH];
        node[0] = TAG_VALUE;
        node[1] = 100_000 + i;
        node[NODE_PENDING] = (rng.below(16) >= free) as u32;
        node[NODE_REVISION] = 1 + rng.below(9);
    }
}

/// Answers to different queries, with short lists, or counts.
fn fill_answers(rng: &mut Rng, hall: &mut Hall) {
    let count = rng.pick(&[0, 1, 62, 63, 64]);
    hall.memories[2][COUNT] = count;
    for i in 0..count {
        let entry = &mut hall.memories[2][HEAD + i as usize * ENTRY_WIDTH..][..ENTRY_WIDTH];
        entry[0] = 1;
        entry[1] = i;
        entry[0] |= if rng.chance(1, 4) { COUNT_BIT } else { 0 };
        entry[ENTRY_LENGTH] = length_for(rng, entry[0]);
        entry[ENTRY_REVISIONS..ENTRY_LIST].fill(1 + rng.below(3));
        entry[ENTRY_LIST..].fill(i);
    }
}

/// The floor and some revisions (counters) near 4,294,967,103 or near the largest number.
fn set_revisions(rng: &mut Rng, hall: &mut Hall) {
    let near = rng.pick(&[1, 1, WORN - 1, u32::MAX - 3]);
    if near == 1 {
        return;
    }
    if rng.chance(1, 2) {
        hall.memories[1][FLOOR] = near + rng.below(3);
    }
    for i in 0..hall.get(1, NODE_COUNT) as usize {
        if rng.chance(1, 2) {
            hall.memories[1][HEAD + i * NODE_WIDTH + NODE_REVISION] = near + rng.below(if near == WORN - 1 { 2 } else { 4 });
        }
    }
    if near == WORN - 1 && rng.chance(1, 2) && hall.get(1, NODE_COUNT) > 0 {
        hall.memories[1][HEAD + NODE_REVISION] = WORN + rng.below(2);
    }
}

/// One number of a hall changed: in a header, in an entry that is in use, or anywhere; or a count of the tally.
pub fn damage(rng: &mut Rng, hall: &Hall) -> Call {
    if rng.chance(1, 16) {
        return Call::Damage { memory: TALLY as u8, place: rng.below(COUNTS as u32), value: rng.pick(&[0, u32::MAX - 1, u32::MAX]) };
    }
    let memory = rng.below(4) as usize;
    let used = match memory {
        0 => hall.get(0, COUNT).min(RECORDS as u32) * hall.columns().min(4),
        1 => hall.get(1, NODE_COUNT).min(NODES as u32) * NODE_WIDTH as u32,
        2 => hall.get(2, COUNT).min(ANSWERS as u32) * ENTRY_WIDTH as u32,
        _ => (CLIENTS * CLIENT_WIDTH) as u32,
    };
    let place = match rng.below(10) {
        0 => rng.below(HEAD as u32),
        1 => rng.below(hall.memories[memory].len() as u32),
        _ => HEAD as u32 + damaged_entry(rng, memory, used),
    };
    let old = hall.get(memory, place as usize);
    let value = match rng.below(10) {
        7 => old ^ COUNT_BIT,
        8 => old.wrapping_add(RANGE_UNIT),
        9 => old ^ RANGE_UNIT << rng.below(4),
        0 => old.wrapping_add(1),
        1 => old.wrapping_sub(1),
        2 => old ^ 1 << rng.below(32),
        3 => rng.any(),
        4 => rng.below(4),
        _ => rng.pick(&EDGES),
    };
    Call::Damage { memory: memory as u8, place, value }
}

/// A place in use; of a desk mostly one of the numbers that are not its list, often of its key; of a filed answer often what it answers, its
/// range or its length.
fn damaged_entry(rng: &mut Rng, memory: usize, used: u32) -> u32 {
    if memory == 2 && rng.chance(1, 2) {
        return rng.below(used / ENTRY_WIDTH as u32) * ENTRY_WIDTH as u32 + rng.pick(&[0, 0, KEY_LOWEST, KEY_HIGHEST, ENTRY_LENGTH]) as u32;
    }
    if memory == 3 && rng.chance(3, 4) {
        let of_key = [0, KEY_LOWEST, KEY_HIGHEST].map(|at| (CLIENT_ENTRY + at) as u32);
        let at = if rng.chance(1, 4) { rng.pick(&of_key) } else { rng.below((CLIENT_ENTRY + ENTRY_LIST) as u32) };
        return rng.below(CLIENTS as u32) * CLIENT_WIDTH as u32 + at;
    }
    rng.below(used)
}

/// One of the 256 ways to give the four memories lengths 0, least - 1, least, least + 1.
pub fn lengths(way: usize) -> [usize; 4] {
    let mut rest = way;
    LEAST.map(|least| {
        let length = [0, least - 1, least, least + 1][rest % 4];
        rest /= 4;
        length
    })
}
