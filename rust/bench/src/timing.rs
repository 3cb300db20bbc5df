//! Times a row on both sides. Each call is timed by itself with the processor's time stamp counter and starts from the same memories: what it
//! changed is put back outside the timed part. Both sides work on one and the same hall, in turns of short batches, so that noise and the
//! placing of the memories hit both. Leans on side, hall, rows.

use crate::hall::Hall;
use crate::rows::Row;
use crate::side::{perform, Act, Library, Reply, Twin, ACCEPTED};
use std::arch::x86_64::{_mm_lfence, _rdtsc};
use std::hint::black_box;
use std::time::{Duration, Instant};

#[derive(Clone, Copy, Debug)]
pub struct Quartiles {
    pub low: f64,
    pub median: f64,
    pub high: f64,
}

impl Quartiles {
    pub fn of(mut values: Vec<f64>) -> Quartiles {
        values.sort_by(f64::total_cmp);
        let at = |part: f64| values[((values.len() - 1) as f64 * part).round() as usize];
        Quartiles { low: at(0.25), median: at(0.5), high: at(0.75) }
    }
}

pub struct Measured {
    pub library: Quartiles,
    pub twin: Quartiles,
    /// the library's time by the twin's, from batches that ran side by side
    pub ratio: Quartiles,
}

/// How long to measure.
#[derive(Clone, Copy)]
pub struct Effort {
    pub pairs: usize,
    pub batch: Duration,
}

/// What the counter's ticks are in nanoseconds, and how many of them the timing itself costs.
#[derive(Clone, Copy)]
pub struct Clock {
    pub tick: f64,
    pub overhead: f64,
}

/// Where the memories start, in numbers after a multiple of 64 bytes: each row is timed at all of these.
const PLACES: [usize; 4] = [0, 4, 8, 12];

pub type Perform = fn(&mut Hall, &Act) -> Reply;
pub const SIDES: [Perform; 2] = [perform::<Library>, perform::<Twin>];

impl Clock {
    pub fn new() -> Clock {
        let (start, ticks) = (Instant::now(), now());
        while start.elapsed() < Duration::from_millis(100) {}
        let tick = start.elapsed().as_nanos() as f64 / (now() - ticks) as f64;
        let mut clock = Clock { tick, overhead: 0.0 };
        let mut rest = Prepared::new(Hall::opened(4), Act::Nothing, ACCEPTED);
        let empty = (0..2001).map(|_| rest.batch(SIDES[0], 8, &clock)).collect();
        clock.overhead = Quartiles::of(empty).median;
        clock
    }
}

/// The counter, read when all before is done and before anything after begins.
pub fn now() -> u64 {
    // SAFETY: both instructions are part of every x86-64 processor and touch no memory.
    unsafe {
        _mm_lfence();
        let ticks = _rdtsc();
        _mm_lfence();
        ticks
    }
}

/// A hall and what one call changes in it, to be put back after each.
pub struct Prepared {
    hall: Hall,
    act: Act,
    changes: [Vec<(usize, Vec<u32>)>; 4],
    tally: twin::Tally,
}

impl Prepared {
    /// Makes the call once on each side, which must give the expected reply and leave the same memories.
    pub fn new(hall: Hall, act: Act, expected: Reply) -> Prepared {
        let mut after = SIDES.map(|_| hall.clone());
        for (side, hall) in SIDES.iter().zip(&mut after) {
            assert_eq!(side(hall, &act), expected, "{act:?}");
        }
        let [left, right] = after;
        assert!(left == right, "{act:?}: the two sides leave different memories");
        let changes = [
            changed(&hall.table, &left.table),
            changed(&hall.nodes, &left.nodes),
            changed(&hall.answers, &left.answers),
            changed(&hall.clients, &left.clients),
        ];
        let tally = hall.tally;
        Prepared { hall, act, changes, tally }
    }

    pub fn restore(&mut self) {
        let h = &mut self.hall;
        h.tally = self.tally;
        for (memory, changes) in [&mut h.table, &mut h.nodes, &mut h.answers, &mut h.clients].into_iter().zip(&self.changes) {
            changes.iter().for_each(|(at, was)| memory[*at..*at + was.len()].copy_from_slice(was));
        }
    }

    /// After the last call all is as it was, but for the tray.
    fn is_as(&self, hall: &Hall) {
        let same = self.hall == Hall { tray: self.hall.tray.clone(), ..hall.clone() };
        assert!(same, "{:?}: not all was put back", self.act);
    }

    /// Nanoseconds of one call, on average over a batch.
    pub fn batch(&mut self, side: Perform, calls: u32, clock: &Clock) -> f64 {
        let mut ticks = 0;
        for _ in 0..calls {
            let start = now();
            black_box(side(black_box(&mut self.hall), black_box(&self.act)));
            ticks += now() - start;
            self.restore();
        }
        ticks as f64 * clock.tick / calls as f64 - clock.overhead
    }
}

/// The stretches in which two memories differ, with what stood there before. Near ones are taken as one.
fn changed(before: &[u32], after: &[u32]) -> Vec<(usize, Vec<u32>)> {
    let mut stretches: Vec<(usize, usize)> = Vec::new();
    for i in (0..before.len()).filter(|i| before[*i] != after[*i]) {
        match stretches.last_mut() {
            Some((_, end)) if i < *end + 16 => *end = i + 1,
            _ => stretches.push((i, i + 1)),
        }
    }
    stretches.into_iter().map(|(start, end)| (start, before[start..end].to_vec())).collect()
}

/// How many calls fill a batch, by the slower side.
pub fn calls_in_batch(length: Duration, nanos: f64) -> u32 {
    (length.as_nanos() as f64 / nanos.max(1.0)).clamp(1.0, 256.0) as u32
}

pub fn measure(row: &Row, effort: Effort, clock: &Clock) -> Measured {
    let mut halls = PLACES.map(|past| Prepared::new(row.hall.placed(past), row.act, row.expected));
    let warm = SIDES.map(|side| halls[0].batch(side, 20, clock));
    let calls = calls_in_batch(effort.batch, warm[0].max(warm[1]));
    let (mut library, mut twin, mut ratio) = (Vec::new(), Vec::new(), Vec::new());
    for pair in 0..effort.pairs {
        // the hall changes from pair to pair, and the one that goes first from round to round
        let rest = &mut halls[pair % PLACES.len()];
        let first = pair / PLACES.len() % 2;
        let mut times = [0.0; 2];
        times[first] = rest.batch(SIDES[first], calls, clock);
        times[1 - first] = rest.batch(SIDES[1 - first], calls, clock);
        library.push(times[0]);
        twin.push(times[1]);
        ratio.push(times[0] / times[1]);
    }
    halls.iter().for_each(|rest| rest.is_as(&row.hall));
    Measured { library: Quartiles::of(library), twin: Quartiles::of(twin), ratio: Quartiles::of(ratio) }
}
