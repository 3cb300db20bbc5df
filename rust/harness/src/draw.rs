//! Draws the calls of a mixing: twelve desks, begins, steps, evictions, abandonings, renewals, and calls that are turned down.
//! It looks at the memories to choose what is worth trying; what it chose is recorded with its arguments. Leans on call, hall and
//! the twin's layout and queries.

use crate::call::{Ask, Asked, Call, Within};
use crate::hall::Hall;
use crate::rng::Rng;
use twin::layout::*;
use twin::query::Query;

/// What a mixing is like.
pub struct Mixing {
    pub k: u32,
    /// values are 1 to this; 0: any number
    values: u32,
    /// of 16 values so many are 0
    zeros: u32,
    /// of 256 others so many are one of the two largest numbers, and as many any number
    far: u32,
    /// of 16 columns so many name a value
    named: u32,
    /// weights of read, insert, delete
    kinds: [u32; 3],
    /// of 16 reads so many ask what a filed answer answers, or what another desk reads
    again: u32,
    /// of 16 other reads so many want a count
    counts: u32,
    /// of 16 other reads so many give a range
    ranges: u32,
    /// writes keep the table near this many records; 0: they do not care
    band: u32,
    /// once there are so many, writes are few and reads are of what is filed
    settles: bool,
    /// of 1,000 calls
    evictions: u32,
    abandonings: u32,
    odd: u32,
    /// a client, the desk, that runs on alone for so many calls
    burst: (u32, u32),
    /// calls until every desk is led to its end; then calls in which that is tried
    before_drain: u32,
    draining: u32,
}

impl Mixing {
    fn new(k: u32, values: u32, named: u32, kinds: [u32; 3]) -> Mixing {
        let (zeros, far) = (1, 1);
        let (again, counts, ranges, band, settles) = (3, 6, 6, 0, false);
        let (evictions, abandonings, odd) = (20, 15, 30);
        let (burst, before_drain, draining) = ((0, 0), 500, 0);
        Mixing {
            k,
            values,
            zeros,
            far,
            named,
            kinds,
            again,
            counts,
            ranges,
            band,
            settles,
            evictions,
            abandonings,
            odd,
            burst,
            before_drain,
            draining,
        }
    }

    /// Few values: reads and writes meet all the time.
    pub fn tight(rng: &mut Rng) -> Mixing {
        let k = 1 + rng.below(4);
        let values = 1 + rng.below(3);
        let named = 4 + rng.below(12);
        let kinds = rng.pick(&[[6, 3, 1], [12, 2, 1], [40, 2, 1]]);
        let mut mixing = Mixing::new(k, values, named, kinds);
        mixing.evictions = rng.pick(&[0, 10, 60, 200]);
        mixing.abandonings = rng.pick(&[0, 10, 40]);
        mixing
    }

    /// Values are 0 and 1 alone (S-5), and reads of what is filed.
    pub fn zeros(rng: &mut Rng) -> Mixing {
        let kinds = rng.pick(&[[6, 3, 1], [12, 3, 2], [40, 2, 1]]);
        let mut mixing = Mixing::new(1 + rng.below(4), 1, 4 + rng.below(10), kinds);
        (mixing.zeros, mixing.far, mixing.odd) = (8, 0, 0);
        mixing.again = 8;
        mixing.evictions = rng.pick(&[0, 10, 60]);
        mixing
    }

    /// Few writes and little put out, and reads of what is filed: demand 2's last sentence binds often.
    pub fn calm(rng: &mut Rng) -> Mixing {
        let kinds = rng.pick(&[[40, 2, 1], [120, 2, 1], [400, 2, 1]]);
        let mut mixing = Mixing::new(1 + rng.below(4), rng.pick(&[2, 4, 40]), 4 + rng.below(12), kinds);
        mixing.again = 10;
        mixing.evictions = rng.pick(&[0, 2, 10]);
        mixing
    }

    /// About 32 records, and reads of them all.
    pub fn short_lists(rng: &mut Rng) -> Mixing {
        let mut mixing = Mixing::new(1 + rng.below(4), 60, 1, [4, 6, 1]);
        mixing.band = 33;
        mixing
    }

    /// Many different reads: 64 answers and 1,024 nodes are soon there.
    pub fn wide(rng: &mut Rng) -> Mixing {
        let mut mixing = Mixing::new(1 + rng.below(4), rng.pick(&[0, 12, 200]), 13, [10, 1, 1]);
        mixing.before_drain = 4000;
        mixing.evictions = 3;
        mixing
    }

    /// Fills the table to 2,048 records and stays there.
    pub fn filling(rng: &mut Rng) -> Mixing {
        // with one column it is full after half as many calls
        let mut mixing = Mixing::new(rng.pick(&[1, 1, 1, 1, 1, 1, 1, 2]), 0, 14, [1, 12, 1]);
        mixing.zeros = 0;
        (mixing.band, mixing.settles) = (2048, true);
        mixing.before_drain = 30_000;
        mixing.abandonings = 40;
        mixing
    }

    /// It is to fill the table.
    pub fn fills(&self) -> bool {
        self.settles
    }

    /// Twelve writers on the same nodes.
    pub fn writers(rng: &mut Rng) -> Mixing {
        let mut mixing = Mixing::new(1 + rng.below(4), 2, 12, [1, 5, 4]);
        mixing.abandonings = 5;
        mixing
    }

    /// For memories that are there already.
    pub fn in_hall(rng: &mut Rng, hall: &Hall) -> Mixing {
        let mut mixing = Mixing::new(hall.columns().clamp(1, 4), rng.pick(&[2, 4, 70]), 2 + rng.below(14), [4, 4, 1]);
        mixing.band = rng.pick(&[0, 33, 2048]);
        mixing.abandonings = 40;
        mixing
    }

    pub fn next(&mut self, rng: &mut Rng, hall: &Hall) -> Call {
        if rng.chance(self.odd, 1000) {
            return odd_call(rng, hall, self.k);
        }
        if self.draining > 0 {
            return self.drain(rng, hall);
        }
        self.before_drain -= 1;
        if self.before_drain == 0 {
            self.draining = 400;
        }
        let roll = rng.below(1000);
        if roll < self.evictions {
            return eviction(rng, hall);
        }
        if roll < self.evictions + self.abandonings {
            return abandoning(rng, hall);
        }
        let client = self.client(rng);
        if hall.kind_at(client) == IDLE {
            self.begin(rng, hall, client)
        } else {
            step(rng, client)
        }
    }

    fn client(&mut self, rng: &mut Rng) -> u32 {
        if self.burst.1 > 0 {
            self.burst.1 -= 1;
        } else {
            self.burst = (rng.below(12), 0);
            if rng.chance(1, 16) {
                self.burst.1 = rng.below(40);
            }
        }
        self.burst.0
    }

    /// Leads busy desks on; when none is left, renews or not, and goes on mixing.
    fn drain(&mut self, rng: &mut Rng, hall: &Hall) -> Call {
        let first = rng.below(12);
        let busy = (0..12).map(|i| (first + i) % 12).find(|client| hall.kind_at(*client) != IDLE);
        self.draining -= 1;
        match busy {
            Some(client) if self.draining > 0 => step(rng, client),
            _ => {
                self.draining = 0;
                self.before_drain = 200 + rng.below(2000);
                if rng.chance(2, 3) {
                    Call::Renew
                } else {
                    eviction(rng, hall)
                }
            }
        }
    }

    fn begin(&mut self, rng: &mut Rng, hall: &Hall, client: u32) -> Call {
        let count = hall.get(0, COUNT);
        if self.settles && count >= self.band {
            self.settle();
        }
        let [reads, inserts, deletes] = self.kinds;
        let roll = rng.below(reads + inserts + deletes);
        if roll < reads {
            let again = if rng.chance(self.again, 16) { asked_again(rng, hall, self.k) } else { None };
            return again.unwrap_or_else(|| self.ask(rng, hall)).begin(client);
        }
        let inserting = if self.band > 0 { count < self.band || rng.chance(1, 2) } else { roll < reads + inserts };
        if inserting {
            return Call::BeginInsert { client, asked: self.query(rng, hall, true) };
        }
        if self.band > 0 {
            return Call::BeginDelete { client, asked: record_in(rng, hall, self.k) };
        }
        Call::BeginDelete { client, asked: self.query(rng, hall, false) }
    }

    /// Counts of stars are kept, and each insert that finds no room shares a node with them (S-6).
    fn settle(&mut self) {
        (self.kinds, self.again) = ([40, 3, 1], 12);
        (self.named, self.counts, self.settles) = (4, 12, false);
        self.abandonings = 80;
    }

    fn ask(&self, rng: &mut Rng, hall: &Hall) -> Ask {
        let ask = Ask { counts: rng.chance(self.counts, 16), asked: self.query(rng, hall, false), within: None };
        if rng.chance(self.ranges, 16) {
            let ends = [self.value(rng), self.value(rng)];
            return with_range(rng, self.k, ask, ends);
        }
        ask
    }

    /// A query that a begin accepts; some of them take up a record that is in the table.
    fn query(&self, rng: &mut Rng, hall: &Hall, whole: bool) -> Asked {
        let from_table = rng.chance(1, 6);
        let mut words = [0; 8];
        if from_table {
            words[..2 * self.k as usize].copy_from_slice(record_in(rng, hall, self.k).words());
        }
        for column in words[..2 * self.k as usize].chunks_mut(2) {
            let value = if from_table { column[1] } else { self.value(rng) };
            let named = whole || rng.chance(self.named, 16);
            column.copy_from_slice(&if named { [1, value] } else { [0, 0] });
        }
        Asked::new(&words[..2 * self.k as usize])
    }

    fn value(&self, rng: &mut Rng) -> u32 {
        if rng.chance(self.zeros, 16) {
            return 0;
        }
        match rng.below(256) {
            roll if roll < self.far => rng.pick(&[u32::MAX - 1, u32::MAX]),
            roll if roll < 2 * self.far => rng.any(),
            _ if self.values == 0 => rng.any(),
            _ => 1 + rng.below(self.values),
        }
    }
}

/// The read with a range between two values, mostly of a column that it does not name; now and then of one that it names or that is none, with
/// equal ends, of all values, or reversed.
pub fn with_range(rng: &mut Rng, k: u32, ask: Ask, [one, other]: [u32; 2]) -> Ask {
    let column = match rng.below(32) {
        0 => k,
        1 => rng.pick(&[k + 1, 4, 5, 1 << 27, u32::MAX]),
        _ => rng.below(k),
    };
    let (least, most) = (one.min(other), one.max(other));
    let (lowest, highest) = match rng.below(32) {
        0 => (one.saturating_add(1), one),
        1 => (most, least),
        2..5 => (one, one),
        5..8 => (0, u32::MAX),
        8 => (most, u32::MAX),
        9 => (0, least),
        _ => (least, most),
    };
    let asked = if rng.chance(1, 32) { ask.asked } else { starred(&ask.asked, column) };
    Ask { asked, within: Some(Within { column, lowest, highest }), ..ask }
}

/// The query with a star in this column, if it is one of its own.
fn starred(asked: &Asked, column: u32) -> Asked {
    let mut words = asked.words().to_vec();
    words.chunks_exact_mut(2).skip(column as usize).take(1).for_each(|own| own.fill(0));
    Asked::new(&words)
}

/// A step, mostly with a tray of the least length.
pub fn step(rng: &mut Rng, client: u32) -> Call {
    let tray = 128 + if rng.chance(1, 8) { rng.below(9) } else { 0 };
    Call::Step { client, tray, fill: rng.any() }
}

/// A record of the table as a query that names every column; zeros where there is none.
fn record_in(rng: &mut Rng, hall: &Hall, k: u32) -> Asked {
    let place = HEAD + (rng.below(hall.get(0, COUNT).min(RECORDS as u32)) * k) as usize;
    let mut words = [0; 8];
    for (c, column) in words.chunks_mut(2).enumerate() {
        column.copy_from_slice(&[1, hall.get(0, place + c)]);
    }
    Asked::new(&words[..2 * k as usize])
}

/// What a filed answer answers or a desk reads, if there is one of k columns; mostly as it is there.
fn asked_again(rng: &mut Rng, hall: &Hall, k: u32) -> Option<Ask> {
    let (count, client) = (hall.get(2, COUNT).min(ANSWERS as u32), rng.below(12));
    let key = if rng.chance(1, 2) && hall.kind_at(client) == READ {
        hall.clients().get(HEAD + client as usize * CLIENT_WIDTH + CLIENT_ENTRY..)?
    } else if count > 0 {
        hall.answers().get(HEAD + rng.below(count) as usize * ENTRY_WIDTH..)?
    } else {
        return None;
    };
    let query = Query::kept(k as usize, key.first_chunk()?)?;
    let mut words = [0; 8];
    for (c, column) in words.chunks_mut(2).enumerate() {
        column.copy_from_slice(&[query.names(c) as u32, query.values[c]]);
    }
    let asked = Asked::new(&words[..2 * k as usize]);
    let within = query.range.map(|range| Within { column: range.column, lowest: range.lowest, highest: range.highest });
    let ask = Ask { asked, counts: query.counts != rng.chance(1, 4), within };
    Some(if rng.chance(1, 4) { with_another_range(rng, k, ask) } else { ask })
}

/// The same but for its range: none, one that differs in one number, or, where there is none, one of all values.
fn with_another_range(rng: &mut Rng, k: u32, ask: Ask) -> Ask {
    let within = match ask.within {
        Some(range) => match rng.below(5) {
            0 => None,
            1 => Some(Within { lowest: range.lowest.wrapping_add(rng.pick(&[1, u32::MAX])), ..range }),
            2 => Some(Within { highest: range.highest.wrapping_add(rng.pick(&[1, u32::MAX])), ..range }),
            3 => Some(Within { lowest: range.highest, ..range }),
            _ => Some(Within { column: rng.below(k), ..range }),
        },
        None => Some(Within { column: rng.below(k), lowest: 0, highest: u32::MAX }),
    };
    Ask { within, ..ask }
}

/// A place: of an entry mostly, sometimes just past the last.
fn place(rng: &mut Rng, count: u32) -> u32 {
    match rng.below(8) {
        0 => count,
        1 => count.saturating_sub(1),
        2 => 0,
        _ => rng.below(count),
    }
}

fn eviction(rng: &mut Rng, hall: &Hall) -> Call {
    if rng.chance(1, 3) {
        Call::EvictAnswer { place: place(rng, hall.get(2, COUNT)) }
    } else {
        Call::EvictNode { place: place(rng, hall.get(1, NODE_COUNT)) }
    }
}

/// Of any desk; half of them of one that writes and has made its table step, if there is one.
fn abandoning(rng: &mut Rng, hall: &Hall) -> Call {
    let first = rng.below(12);
    let nodes = 1 << hall.columns().min(4);
    let past_table = |client: &u32| hall.kind_at(*client) > READ && hall.client_number(*client, CLIENT_STEPS) > nodes;
    let found = (0..12).map(|i| (first + i) % 12).find(past_table).filter(|_| rng.chance(1, 2));
    Call::Abandon { client: found.unwrap_or(first) }
}

fn odd_client(rng: &mut Rng) -> u32 {
    match rng.below(4) {
        0 => rng.below(12),
        1 => 11,
        2 => 12,
        _ => rng.pick(&[13, 24, u32::MAX, 1 << 31]),
    }
}

/// A query that may have any flaw: columns too many or too few, half a column, a mark above 1, a star with a value.
fn odd_query(rng: &mut Rng, k: u32) -> Asked {
    let len = match rng.below(8) {
        0 => 2 * k + 1,
        1 => 2 * k - 1,
        2 => 2 * k + 2,
        3 => 2 * k - 2,
        _ => 2 * k,
    };
    let mut words = [0; 12];
    for column in words.chunks_mut(2) {
        let mark = rng.pick(&[0, 1, 1, 1, 1, 1, 2, u32::MAX]);
        column.copy_from_slice(&[mark, if mark == 0 && rng.chance(1, 2) { 0 } else { rng.below(3) }]);
    }
    Asked::new(&words[..len as usize])
}

/// A range that may have any flaw: of a column that is none, or reversed.
fn odd_range(rng: &mut Rng, k: u32) -> Within {
    let column = match rng.below(4) {
        0 => rng.pick(&[k, k + 1, 4, 5, 1 << 27, u32::MAX]),
        1 => k - 1,
        _ => rng.below(k),
    };
    let mut end = || rng.pick(&[0, 1, 1, 2, 3, u32::MAX - 1, u32::MAX]);
    Within { column, lowest: end(), highest: end() }
}

/// A call that is turned down more often than not.
pub fn odd_call(rng: &mut Rng, hall: &Hall, k: u32) -> Call {
    let (client, asked) = (odd_client(rng), odd_query(rng, k));
    match rng.below(12) {
        0 => Call::Open { k: rng.pick(&[0, 5, 6, u32::MAX]) },
        1 => Ask { asked, counts: rng.chance(1, 2), within: None }.begin(client),
        2 => Call::BeginInsert { client, asked },
        3 => Call::BeginDelete { client, asked },
        4 => Call::Step { client: rng.below(12), tray: rng.pick(&[0, 1, 127]), fill: rng.any() },
        5 => step(rng, client),
        6 => Call::Abandon { client },
        7 => Call::EvictAnswer { place: rng.pick(&[hall.get(2, COUNT), 64, u32::MAX]) },
        8 => Call::EvictNode { place: rng.pick(&[hall.get(1, NODE_COUNT), 1024, u32::MAX]) },
        9 => Call::Renew,
        10 => Ask { asked, within: Some(odd_range(rng, k)), counts: rng.chance(1, 2) }.begin(client),
        // here the query is sound, so that the range alone may be turned down
        _ => Ask { asked: plain_query(rng, k, 3, 10), counts: rng.chance(1, 2), within: Some(odd_range(rng, k)) }.begin(client),
    }
}

/// Any call, for memories of any contents: the query fits the k in memory if a query can.
pub fn any_call(rng: &mut Rng, hall: &Hall) -> Call {
    let columns = hall.columns();
    let k = if columns <= 6 && rng.chance(7, 8) { columns } else { 1 + rng.below(4) };
    if rng.chance(1, 12) {
        return odd_call(rng, hall, k.clamp(1, 5));
    }
    let (client, values) = (rng.below(13), rng.pick(&[2, 3, 6]));
    match rng.below(24) {
        0 => Call::Open { k: rng.below(6) },
        1..4 => any_ask(rng, k, values).begin(client),
        4..7 => Call::BeginInsert { client, asked: plain_query(rng, k, values, 16) },
        7..9 => Call::BeginDelete { client, asked: plain_query(rng, k, values, 10) },
        9 => Call::EvictAnswer { place: place(rng, hall.get(2, COUNT)) },
        10 => Call::EvictNode { place: place(rng, hall.get(1, NODE_COUNT)) },
        11 => Call::Renew,
        12..15 => Call::Abandon { client },
        _ => step(rng, client),
    }
}

/// What a read of a query of k columns may ask; a third of them with a range.
pub fn any_ask(rng: &mut Rng, k: u32, values: u32) -> Ask {
    let ask = Ask { counts: rng.chance(1, 2), asked: plain_query(rng, k, values, 10), within: None };
    let ends = [rng.below(values), rng.below(values)];
    if rng.chance(1, 3) {
        with_range(rng, k, ask, ends)
    } else {
        ask
    }
}

/// A query of k columns, of 16 of which so many are named.
pub fn plain_query(rng: &mut Rng, k: u32, values: u32, named: u32) -> Asked {
    let mut words = [0; 12];
    for column in words.chunks_mut(2) {
        if rng.chance(named, 16) {
            column.copy_from_slice(&[1, rng.below(values)]);
        }
    }
    Asked::new(&words[..2 * k as usize])
}
