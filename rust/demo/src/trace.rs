//! A trace: each call of the script with its reply and the memories that it left. Leans on script and controller.

use crate::controller::Controller;
use crate::script::{script, Call, Item, Part};
use twin::layout::*;
use twin::Reply;

pub const LEAST: [usize; 5] = [TABLE_LEAST, NODES_LEAST, ANSWERS_LEAST, CLIENTS_LEAST, TRAY_LEAST];

/// The most steps that a read or a write takes: a desk that is not idle then never will be.
const MOST_STEPS: usize = 33;

/// Table, nodes, answers, desks and tray.
#[derive(Clone, PartialEq, Debug)]
pub struct Hall {
    pub memories: [Vec<u32>; 5],
}

impl Hall {
    pub fn zeros() -> Hall {
        Hall { memories: LEAST.map(|length| vec![0; length]) }
    }

    pub fn table(&self) -> &[u32] {
        &self.memories[0]
    }

    pub fn nodes(&self) -> &[u32] {
        &self.memories[1]
    }

    pub fn answers(&self) -> &[u32] {
        &self.memories[2]
    }

    /// The numbers of a desk.
    pub fn desk(&self, desk: u32) -> &[u32] {
        &self.memories[3][HEAD + desk as usize * CLIENT_WIDTH..][..CLIENT_WIDTH]
    }

    pub fn is_idle(&self, desk: u32) -> bool {
        self.desk(desk)[CLIENT_KIND] == IDLE
    }

    pub fn tray(&self) -> &[u32] {
        &self.memories[4]
    }
}

/// A call that was made.
#[derive(Clone, PartialEq, Debug)]
pub struct Made {
    pub part: Part,
    pub call: Call,
    pub reply: Reply,
    /// the memories after it
    pub hall: Hall,
}

#[derive(Clone, PartialEq, Debug)]
pub struct Trace {
    pub made: Vec<Made>,
}

impl Trace {
    /// Makes the script's calls.
    pub fn play(controller: &dyn Controller) -> Trace {
        let mut hall = Hall::zeros();
        let mut made = Vec::new();
        for (part, item) in script() {
            let (call, times) = match item {
                Item::Call(call) => (call, 1),
                Item::Finish { desk } => (Call::Step { desk }, MOST_STEPS),
            };
            for _ in 0..times {
                if matches!(item, Item::Finish { desk } if hall.is_idle(desk)) {
                    break;
                }
                let reply = controller.make(&call, &mut hall);
                made.push(Made { part, call, reply, hall: hall.clone() });
            }
        }
        Trace { made }
    }

    /// The trace of calls that were made elsewhere, each put to the part of the script that it belongs to; none if they are not the script's.
    pub fn of_calls(calls: Vec<(Call, Reply, Hall)>) -> Option<Trace> {
        let mut made: Vec<Made> = Vec::new();
        let mut calls = calls.into_iter().peekable();
        for (part, item) in script() {
            match item {
                Item::Call(call) => {
                    let (_, reply, hall) = calls.next_if(|next| next.0 == call)?;
                    made.push(Made { part, call, reply, hall });
                }
                Item::Finish { desk } => {
                    while !made.last()?.hall.is_idle(desk) {
                        let (call, reply, hall) = calls.next_if(|next| next.0 == Call::Step { desk })?;
                        made.push(Made { part, call, reply, hall });
                    }
                }
            }
        }
        calls.next().is_none().then_some(Trace { made })
    }

    /// The hall before call `i`.
    pub fn before(&self, i: usize) -> Option<&Hall> {
        i.checked_sub(1).map(|j| &self.made[j].hall)
    }

    /// The calls of a part, by their places.
    pub fn places(&self, part: Part) -> impl Iterator<Item = usize> + '_ {
        (0..self.made.len()).filter(move |i| self.made[*i].part == part)
    }

    /// The number that a call is printed with: the mixing starts at 1; what is there before has none.
    pub fn number(&self, i: usize) -> Option<usize> {
        (i + 1).checked_sub(self.places(Part::Before).count()).filter(|number| *number > 0)
    }

    /// The call that answered the read of this part, if one did.
    pub fn answer(&self, part: Part) -> Option<usize> {
        self.places(part).find(|i| matches!(self.made[*i].reply.ending, 1 | 2))
    }
}
