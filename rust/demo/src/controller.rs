//! Who makes the calls: the twin, with a fault or none, or the library through its archive. Leans on script, trace, twin and mondzafeky.

use crate::script::{Call, Kind};
use crate::trace::Hall;
use twin::{Fault, Reply, PLAIN};

pub trait Controller {
    fn make(&self, call: &Call, hall: &mut Hall) -> Reply;
}

/// A call over lent memories: those of the twin and of the library have the same names, and different types.
macro_rules! make {
    ($memories:expr, $call:expr, $tray:expr) => {
        match *$call {
            Call::Open { k } => $memories.open(k),
            Call::Begin { kind: Kind::Read, desk, asked } => $memories.begin_read(desk, &asked),
            Call::Begin { kind: Kind::Insert, desk, asked } => $memories.begin_insert(desk, &asked),
            Call::Begin { kind: Kind::Delete, desk, asked } => $memories.begin_delete(desk, &asked),
            Call::Step { desk } => $memories.step($tray, desk),
        }
    };
}

/// The rules in plain Rust.
pub struct Twin<const FAULT: u8>;

impl<const FAULT: u8> Controller for Twin<FAULT> {
    fn make(&self, call: &Call, hall: &mut Hall) -> Reply {
        let [table, nodes, answers, clients, tray] = &mut hall.memories;
        let mut memories = twin::Memories::<FAULT> { table, nodes, answers, clients };
        make!(memories, call, tray)
    }
}

/// The controller that is feared: it raises before its table step, and marks nothing.
pub const FAULTY: Twin<{ Fault::EarlyRaise as u8 }> = Twin;
/// The twin without a fault. The demo does not show it; its tests use it where there is no archive.
pub const SOUND: Twin<PLAIN> = Twin;

/// The proved library.
#[cfg(feature = "archive")]
pub struct Library;

#[cfg(feature = "archive")]
impl Controller for Library {
    fn make(&self, call: &Call, hall: &mut Hall) -> Reply {
        let [table, nodes, answers, clients, tray] = &mut hall.memories;
        let mut memories = mondzafeky::Memories { table, nodes, answers, clients };
        let reply = make!(memories, call, tray);
        Reply { number: reply.number, count: reply.count, ending: reply.ending }
    }
}
