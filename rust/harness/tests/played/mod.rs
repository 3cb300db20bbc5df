//! A history of one side under the checkers, for the tests. Leans on call, made, check, hall and side.
// each test takes of it what it needs
#![allow(dead_code)]

use harness::call::Call;
use harness::check::{Checker, Complaint};
use harness::hall::{Hall, LEAST};
use harness::made::Made;
use harness::side::{Reply, Side};

pub struct Played {
    pub side: &'static dyn Side,
    pub hall: Hall,
    pub checker: Checker,
}

impl Played {
    /// A hall of k columns, just opened.
    pub fn opened(side: &'static dyn Side, k: u32) -> Played {
        let mut hall = Hall::zeros(LEAST);
        assert_eq!(Call::Open { k }.make(side, &mut hall).number, 0);
        Played { side, hall, checker: Checker::opened(k) }
    }

    /// What the checkers say if something is done to a call's reply and to the hall after it.
    pub fn bent(&mut self, made: impl Into<Made>, bend: impl Fn(&mut Reply, &mut Hall)) -> (Reply, Option<Complaint>) {
        let made = made.into();
        self.checker.before(made, &self.hall);
        let mut reply = made.make(self.side, &mut self.hall);
        bend(&mut reply, &mut self.hall);
        (reply, self.checker.after(made, reply, &self.hall))
    }

    pub fn tell(&mut self, made: impl Into<Made>) -> (Reply, Option<Complaint>) {
        self.bent(made, |_, _| {})
    }

    /// A call that is accepted and not complained of.
    pub fn make(&mut self, made: impl Into<Made>) -> Reply {
        let made = made.into();
        let (reply, complaint) = self.tell(made);
        assert_eq!((reply.number, complaint), (0, None), "{made}");
        reply
    }

    /// The reply to the last of so many steps.
    pub fn steps(&mut self, client: u32, times: u32) -> Reply {
        (0..times).map(|_| self.make(Call::Step { client, tray: 128, fill: 7 })).last().unwrap()
    }
}
