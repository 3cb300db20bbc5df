//! The cache test of source document 002, appendix A: reads of planes, inserts of points and deletes of lines of a 10 x 10 x 10 grid, at twelve
//! desks whose single steps mix at random. Counts hits, and checks each answer by a plain table of its own. The grid's values are 1 to 10: 0 means
//! not measured, and no read or delete finds it by name. Leans on hall and side.

use crate::hall::Hall;
use crate::rng::Rng;
use crate::side::{perform, Act, Asked, Kind, Library, Reply, ACCEPTED};
use std::collections::{BTreeSet, HashSet};
use twin::layout::*;

type Point = [u32; 3];

/// How many values each column of the grid has, from the least on.
const EDGE: u32 = 10;
const LEAST: u32 = 1;

/// Weights of the operations, and what the document printed: hits and stale answers of 100,000 operations, both ratios in percent.
pub struct Mix {
    pub name: &'static str,
    pub weights: [u32; 3],
    pub paper_hits: u32,
    pub paper_stale: u32,
    pub paper_naive: u32,
}

#[rustfmt::skip]
pub const MIXES: [Mix; 5] = [
    Mix { name: "99 / 0.9 / 0.1", weights: [990, 9, 1], paper_hits: 97, paper_stale: 440, paper_naive: 29 },
    Mix { name: "98 / 1 / 1", weights: [98, 1, 1], paper_hits: 91, paper_stale: 1527, paper_naive: 34 },
    Mix { name: "90 / 9 / 1", weights: [90, 9, 1], paper_hits: 73, paper_stale: 4858, paper_naive: 12 },
    Mix { name: "80 / 10 / 10", weights: [8, 1, 1], paper_hits: 35, paper_stale: 6343, paper_naive: 10 },
    Mix { name: "1/3 each", weights: [1, 1, 1], paper_hits: 7, paper_stale: 963, paper_naive: 2 },
];

/// How the twelve desks and the grid are used.
#[derive(Clone, Copy, PartialEq, Eq)]
pub struct Setting {
    pub name: &'static str,
    /// the steps of the desks mix; otherwise each operation runs to its end before the next begins
    pub mixed: bool,
    /// inserts take any point of the grid; otherwise only those of the quarter that the table was filled with, so that no plane is long
    pub whole_grid: bool,
}

pub const SETTINGS: [Setting; 3] = [
    Setting { name: "twelve desks, steps mixed", mixed: true, whole_grid: false },
    Setting { name: "one operation at a time", mixed: false, whole_grid: false },
    Setting { name: "twelve desks, steps mixed, inserts anywhere", mixed: true, whole_grid: true },
];

#[derive(Clone, Copy, Default, Debug)]
pub struct Tally {
    pub calls: u64,
    pub hits: u64,
    pub misses: u64,
    pub long: u64,
    /// answers that are the query's list at no moment of their read
    pub stale: u64,
    /// hits that are the query's list at the moment of the answer too
    pub fresh: u64,
    pub naive_hits: u64,
    pub inserts: u64,
    pub deletes: u64,
    /// nodes that left to make room
    pub room_made: u64,
}

impl Tally {
    pub fn hit_ratio(&self) -> f64 {
        self.hits as f64 / (self.hits + self.misses).max(1) as f64
    }

    pub fn naive_ratio(&self) -> f64 {
        self.naive_hits as f64 / (self.hits + self.misses).max(1) as f64
    }

    pub fn add(&mut self, other: &Tally) {
        self.calls += other.calls;
        self.hits += other.hits;
        self.misses += other.misses;
        self.long += other.long;
        self.stale += other.stale;
        self.fresh += other.fresh;
        self.naive_hits += other.naive_hits;
        self.inserts += other.inserts;
        self.deletes += other.deletes;
        self.room_made += other.room_made;
    }
}

/// What is under way at a desk, as the calls' arguments and replies tell it.
struct Work {
    kind: Kind,
    asked: Asked,
    steps: u32,
    /// of a read: its query's list at each moment so far, where it differs from the one before
    lists: Vec<Vec<Point>>,
}

struct Run<'a> {
    hall: Hall,
    rng: Rng,
    mix: &'a Mix,
    points: Vec<Point>,
    plain: BTreeSet<Point>,
    /// what is under way at each desk
    clients: [Option<Work>; CLIENTS],
    /// the planes that a cache would hold which is emptied at every write
    naive: HashSet<Point>,
    tally: Tally,
}

/// Runs so many operations of a mix, after filling the table and emptying the caches.
pub fn run(mix: &Mix, setting: Setting, operations: u32, seed: u64) -> Tally {
    let mut run = Run::new(mix, setting, seed);
    let mut begun = 0;
    while begun < operations || run.clients.iter().any(Option::is_some) {
        let client = if setting.mixed { run.rng.below(CLIENTS as u32) } else { 0 };
        if run.clients[client as usize].is_some() {
            run.step(client);
        } else if begun < operations {
            run.begin(client);
            begun += 1;
        }
    }
    run.tally
}

fn grid() -> impl Iterator<Item = Point> {
    (0..EDGE.pow(3)).map(|i| [i / EDGE / EDGE, i / EDGE % EDGE, i % EDGE].map(|value| LEAST + value))
}

fn lies(point: &Point, asked: &Asked) -> bool {
    asked.columns().zip(point).all(|(column, value)| column.is_none_or(|named| named == *value))
}

impl Run<'_> {
    /// A quarter of the grid is filled, evenly: 24 to 26 points of each plane.
    fn new(mix: &Mix, setting: Setting, seed: u64) -> Run<'_> {
        let quarter: Vec<Point> = grid().filter(|p| p.iter().map(|value| value - LEAST).sum::<u32>() % 4 == 0).collect();
        let mut hall = Hall::opened(3);
        for point in &quarter {
            let whole = Act::Whole(Kind::Insert, 0, Asked::new(&point.map(Some)));
            assert_eq!(perform::<Library>(&mut hall, &whole), Reply { number: 0, count: 0, ending: 3 });
        }
        assert_eq!(perform::<Library>(&mut hall, &Act::Renew), ACCEPTED);
        let plain = quarter.iter().copied().collect();
        let points = if setting.whole_grid { grid().collect() } else { quarter };
        let clients = [const { None }; CLIENTS];
        Run { hall, rng: Rng::new(seed), mix, points, plain, clients, naive: HashSet::new(), tally: Tally::default() }
    }

    fn draw(&mut self) -> (Kind, Asked) {
        let [reads, inserts, deletes] = self.mix.weights;
        let drawn = self.rng.below(reads + inserts + deletes);
        let column = self.rng.below(3) as usize;
        let mut point = [0; 3].map(|_| Some(LEAST + self.rng.below(EDGE)));
        if drawn < reads {
            (0..3).filter(|c| *c != column).for_each(|c| point[c] = None);
            (Kind::Read, Asked::new(&point))
        } else if drawn < reads + inserts {
            let point = self.points[self.rng.below(self.points.len() as u32) as usize];
            (Kind::Insert, Asked::new(&point.map(Some)))
        } else {
            point[column] = None;
            (Kind::Delete, Asked::new(&point))
        }
    }

    fn list(&self, asked: &Asked) -> Vec<Point> {
        self.plain.iter().filter(|point| lies(point, asked)).copied().collect()
    }

    fn begin(&mut self, client: u32) {
        let (kind, asked) = self.draw();
        assert_eq!(perform::<Library>(&mut self.hall, &Act::Begin(kind, client, asked)), ACCEPTED);
        self.tally.calls += 1;
        let lists = if kind == Kind::Read { vec![self.list(&asked)] } else { Vec::new() };
        self.clients[client as usize] = Some(Work { kind, asked, steps: 0, lists });
    }

    fn step(&mut self, client: u32) {
        let newest = self.newest_node();
        let reply = perform::<Library>(&mut self.hall, &Act::Step(client));
        self.tally.calls += 1;
        if newest.is_some() && newest != self.newest_node() {
            self.tally.room_made += 1;
        }
        let work = self.clients[client as usize].as_mut().expect("a busy desk");
        work.steps += 1;
        // a write of three columns has eight nodes, and its table step is the next
        if work.kind != Kind::Read && work.steps == 9 {
            self.write(client);
        }
        if reply != ACCEPTED {
            self.end(client, reply);
        }
    }

    /// The last node's label where there is no room for another.
    fn newest_node(&self) -> Option<[u32; LABEL_WIDTH]> {
        let last = HEAD + (NODES - 1) * NODE_WIDTH;
        (self.hall.nodes[NODE_COUNT] as usize == NODES).then(|| self.hall.nodes[last..last + LABEL_WIDTH].try_into().expect("a label"))
    }

    /// The write takes effect on the plain table; a moment for every read under way.
    fn write(&mut self, client: u32) {
        let work = self.clients[client as usize].as_ref().expect("a busy desk");
        let asked = work.asked;
        if work.kind == Kind::Delete {
            self.plain.retain(|point| !lies(point, &asked));
        } else {
            self.plain.extend(grid().filter(|point| lies(point, &asked)));
        }
        self.naive.clear();
        for place in 0..CLIENTS {
            let Some(read) = self.clients[place].as_ref().filter(|work| work.kind == Kind::Read) else { continue };
            let list = self.list(&read.asked);
            let lists = &mut self.clients[place].as_mut().expect("the same desk").lists;
            if lists.last() != Some(&list) {
                lists.push(list);
            }
        }
    }

    fn end(&mut self, client: u32, reply: Reply) {
        let work = self.clients[client as usize].take().expect("a busy desk");
        match (work.kind, reply) {
            (Kind::Read, Reply { number: 12, .. }) => {
                self.tally.long += 1;
                self.tally.stale += (self.list(&work.asked).len() <= LIST) as u64;
            }
            (Kind::Read, Reply { number: 0, count, ending: 1 | 2 }) => self.answered(&work, count as usize, reply.ending == 1),
            (Kind::Insert, Reply { number: 0, ending: 3 | 4, .. }) => self.tally.inserts += (reply.ending == 3) as u64,
            (Kind::Delete, Reply { number: 0, ending: 3 | 4, .. }) => self.tally.deletes += (reply.ending == 3) as u64,
            _ => panic!("{reply:?} ends a {:?}", work.kind),
        }
    }

    fn answered(&mut self, work: &Work, count: usize, hit: bool) {
        let answer: Vec<Point> = self.hall.tray.chunks(3).take(count).map(|p| [p[0], p[1], p[2]]).collect();
        self.tally.stale += !work.lists.contains(&answer) as u64;
        self.tally.hits += hit as u64;
        self.tally.misses += !hit as u64;
        self.tally.fresh += (hit && work.lists.last() == Some(&answer)) as u64;
        let mut plane = [u32::MAX; 3];
        work.asked.columns().enumerate().for_each(|(c, value)| plane[c] = value.unwrap_or(u32::MAX));
        self.tally.naive_hits += !self.naive.insert(plane) as u64;
    }
}
