//! One side of a comparison: the calls, one method each, and one for those that are lent a tally. The twin with each fault is one. Leans on the twin,
//! and on call and hall for what is handed over.

use crate::call::{Call, Within};
use crate::hall::Tally;
use twin::{Fault, Memories};

pub use twin::Reply;

/// The four memories as they are lent to a call.
pub struct Lent<'a> {
    pub table: &'a mut [u32],
    pub nodes: &'a mut [u32],
    pub answers: &'a mut [u32],
    /// the desks
    pub clients: &'a mut [u32],
}

pub trait Side {
    fn open(&self, m: Lent, k: u32) -> Reply;
    fn begin_read(&self, m: Lent, client: u32, query: &[u32]) -> Reply;
    fn begin_count(&self, m: Lent, client: u32, query: &[u32]) -> Reply;
    fn begin_read_within(&self, m: Lent, client: u32, query: &[u32], within: Within) -> Reply;
    fn begin_count_within(&self, m: Lent, client: u32, query: &[u32], within: Within) -> Reply;
    fn begin_insert(&self, m: Lent, client: u32, query: &[u32]) -> Reply;
    fn begin_delete(&self, m: Lent, client: u32, query: &[u32]) -> Reply;
    fn step(&self, m: Lent, tray: &mut [u32], client: u32) -> Reply;
    fn abandon(&self, m: Lent, client: u32) -> Reply;
    fn evict_answer(&self, m: Lent, place: u32) -> Reply;
    fn evict_node(&self, m: Lent, place: u32) -> Reply;
    fn renew(&self, m: Lent) -> Reply;
    /// A begin, a step or an abandoning that is lent a tally; only a step uses the tray.
    fn tallied(&self, m: Lent, tray: &mut [u32], tally: &mut Tally, call: &Call) -> Reply;
}

/// The twin, with a fault or none.
pub struct Twin<const FAULT: u8>;

impl<const FAULT: u8> Twin<FAULT> {
    fn over(m: Lent<'_>) -> Memories<'_, FAULT> {
        Memories { table: m.table, nodes: m.nodes, answers: m.answers, clients: m.clients }
    }
}

impl<const FAULT: u8> Side for Twin<FAULT> {
    fn open(&self, m: Lent, k: u32) -> Reply {
        Self::over(m).open(k)
    }
    fn begin_read(&self, m: Lent, client: u32, query: &[u32]) -> Reply {
        Self::over(m).begin_read(client, query)
    }
    fn begin_count(&self, m: Lent, client: u32, query: &[u32]) -> Reply {
        Self::over(m).begin_count(client, query)
    }
    fn begin_read_within(&self, m: Lent, client: u32, query: &[u32], within: Within) -> Reply {
        Self::over(m).begin_read_within(client, query, within.column, within.lowest, within.highest)
    }
    fn begin_count_within(&self, m: Lent, client: u32, query: &[u32], within: Within) -> Reply {
        Self::over(m).begin_count_within(client, query, within.column, within.lowest, within.highest)
    }
    fn begin_insert(&self, m: Lent, client: u32, query: &[u32]) -> Reply {
        Self::over(m).begin_insert(client, query)
    }
    fn begin_delete(&self, m: Lent, client: u32, query: &[u32]) -> Reply {
        Self::over(m).begin_delete(client, query)
    }
    fn step(&self, m: Lent, tray: &mut [u32], client: u32) -> Reply {
        Self::over(m).step(tray, client)
    }
    fn abandon(&self, m: Lent, client: u32) -> Reply {
        Self::over(m).abandon(client)
    }
    fn evict_answer(&self, m: Lent, place: u32) -> Reply {
        Self::over(m).evict_answer(place)
    }
    fn evict_node(&self, m: Lent, place: u32) -> Reply {
        Self::over(m).evict_node(place)
    }
    fn renew(&self, m: Lent) -> Reply {
        Self::over(m).renew()
    }
    fn tallied(&self, m: Lent, tray: &mut [u32], tally: &mut Tally, call: &Call) -> Reply {
        let mut m = Self::over(m);
        match call {
            Call::BeginRead { client, asked } => m.begin_read_tallied(tally, *client, asked.words()),
            Call::BeginCount { client, asked } => m.begin_count_tallied(tally, *client, asked.words()),
            Call::BeginReadWithin { client, asked, within } => {
                m.begin_read_within_tallied(tally, *client, asked.words(), within.column, within.lowest, within.highest)
            }
            Call::BeginCountWithin { client, asked, within } => {
                m.begin_count_within_tallied(tally, *client, asked.words(), within.column, within.lowest, within.highest)
            }
            Call::BeginInsert { client, asked } => m.begin_insert_tallied(tally, *client, asked.words()),
            Call::BeginDelete { client, asked } => m.begin_delete_tallied(tally, *client, asked.words()),
            Call::Step { client, .. } => m.step_tallied(tray, tally, *client),
            Call::Abandon { client } => m.abandon_tallied(tally, *client),
            other => unreachable!("{other} is lent no tally"),
        }
    }
}

/// The faults by name; the first five are those of document 01, the last sixteen of counts (S-1), of ranges (S-3), of abandonings (S-4), of the
/// value 0 (S-5), of writes that change nothing (S-6) and of the tally (S-7).
pub const FAULTS: [(&str, Fault); 22] = [
    ("early-raise", Fault::EarlyRaise),
    ("back-at-one", Fault::BackAtOne),
    ("one-bit", Fault::OneBit),
    ("late-look", Fault::LateLook),
    ("stacked", Fault::Stacked),
    ("no-marks", Fault::NoPending),
    ("one-key", Fault::OneKey),
    ("count-on-tray", Fault::CountOnTray),
    ("plain-key", Fault::PlainKey),
    ("wide-range", Fault::WideRange),
    ("taken-back", Fault::TakenBack),
    ("marks-left", Fault::MarksLeft),
    ("zero-as-star", Fault::ZeroAsStar),
    ("all-values", Fault::AllValues),
    ("zero-unseen", Fault::ZeroUnseen),
    ("always-raised", Fault::AlwaysRaised),
    ("never-raised", Fault::NeverRaised),
    ("full-raised", Fault::FullRaised),
    ("file-as-table", Fault::FileAsTable),
    ("full-early", Fault::FullEarly),
    ("full-altered", Fault::FullAltered),
    ("begun-at-end", Fault::BegunAtEnd),
];

pub fn fault_named(name: &str) -> Option<Fault> {
    FAULTS.iter().find(|(n, _)| *n == name).map(|(_, fault)| *fault)
}

/// The twin with a fault that is known only when the program runs.
pub fn twin_with(fault: Fault) -> &'static dyn Side {
    match fault {
        Fault::None => &Twin::<{ Fault::None as u8 }>,
        Fault::EarlyRaise => &Twin::<{ Fault::EarlyRaise as u8 }>,
        Fault::BackAtOne => &Twin::<{ Fault::BackAtOne as u8 }>,
        Fault::OneBit => &Twin::<{ Fault::OneBit as u8 }>,
        Fault::LateLook => &Twin::<{ Fault::LateLook as u8 }>,
        Fault::Stacked => &Twin::<{ Fault::Stacked as u8 }>,
        Fault::NoPending => &Twin::<{ Fault::NoPending as u8 }>,
        Fault::OneKey => &Twin::<{ Fault::OneKey as u8 }>,
        Fault::CountOnTray => &Twin::<{ Fault::CountOnTray as u8 }>,
        Fault::PlainKey => &Twin::<{ Fault::PlainKey as u8 }>,
        Fault::WideRange => &Twin::<{ Fault::WideRange as u8 }>,
        Fault::TakenBack => &Twin::<{ Fault::TakenBack as u8 }>,
        Fault::MarksLeft => &Twin::<{ Fault::MarksLeft as u8 }>,
        Fault::ZeroAsStar => &Twin::<{ Fault::ZeroAsStar as u8 }>,
        Fault::AllValues => &Twin::<{ Fault::AllValues as u8 }>,
        Fault::ZeroUnseen => &Twin::<{ Fault::ZeroUnseen as u8 }>,
        Fault::AlwaysRaised => &Twin::<{ Fault::AlwaysRaised as u8 }>,
        Fault::NeverRaised => &Twin::<{ Fault::NeverRaised as u8 }>,
        Fault::FullRaised => &Twin::<{ Fault::FullRaised as u8 }>,
        Fault::FileAsTable => &Twin::<{ Fault::FileAsTable as u8 }>,
        Fault::FullEarly => &Twin::<{ Fault::FullEarly as u8 }>,
        Fault::FullAltered => &Twin::<{ Fault::FullAltered as u8 }>,
        Fault::BegunAtEnd => &Twin::<{ Fault::BegunAtEnd as u8 }>,
    }
}
