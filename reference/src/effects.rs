//! What one input gives: records to be synced, and then what may be said, in order.

use crate::codec::{Message, Record};
use crate::numbers::{BoxNumber, Engine, Refusal, Section};

/// A line or a message that a box gives out.
#[derive(Clone, Copy, PartialEq, Eq, Debug)]
pub enum Said {
    Refused(Refusal),
    Had(Engine, Section),
    GiveBack(Engine),
    Send(BoxNumber, Message),
}

/// The records come first: nothing is said before they are synced.
#[derive(Clone, PartialEq, Eq, Default, Debug)]
pub struct Effects {
    pub records: Vec<Record>,
    pub said: Vec<Said>,
}

impl Effects {
    pub fn record(&mut self, record: Record) {
        self.records.push(record);
    }

    pub fn refuse(&mut self, refusal: Refusal) {
        self.said.push(Said::Refused(refusal));
    }

    pub fn had(&mut self, engine: Engine, section: Section) {
        self.said.push(Said::Had(engine, section));
    }

    pub fn give_back(&mut self, engine: Engine) {
        self.said.push(Said::GiveBack(engine));
    }

    pub fn send(&mut self, to: BoxNumber, message: Message) {
        self.said.push(Said::Send(to, message));
    }
}
