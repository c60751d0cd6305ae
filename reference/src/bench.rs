//! A full box for counting instructions: 64 engines at one box, 63 of them in one queue, all noted.

use crate::codec::{Call, CallKind, Change, Message, Sign, Waits};
use crate::effects::{Effects, Said};
use crate::numbers::{BoxNumber, Engine, Section, YardSize, MAX_ENGINES, PLACES};
use crate::signal_box::{Input, SignalBox};
use std::collections::VecDeque;

/// Which message is handled again and again.
#[derive(Clone, Copy, PartialEq, Eq, Debug)]
pub enum Kind {
    /// A take and a free in turn, each with the next number: done, recorded and answered.
    Call,
    /// The last take again: refused, and answered again.
    Repeat,
    /// Which change: answered.
    Which,
    /// A change that is known already, with 63 engines waiting: passed over.
    Change,
    /// A wait for a section whose holder is at home here: noted, and a sign sent.
    Waits,
    /// A sign that rises: recorded, with nobody waiting for its engine.
    Heard,
    /// A second: 63 waits said again, and 63 signs told.
    Second,
}

impl Kind {
    pub fn from_word(word: &str) -> Option<Kind> {
        match word {
            "call" => Some(Kind::Call),
            "repeat" => Some(Kind::Repeat),
            "which" => Some(Kind::Which),
            "change" => Some(Kind::Change),
            "waits" => Some(Kind::Waits),
            "heard" => Some(Kind::Heard),
            "second" => Some(Kind::Second),
            _ => None,
        }
    }
}

const ONLY_BOX: BoxNumber = BoxNumber(0);

/// The section for which 63 engines wait; engine 0 has it.
const WANTED: Section = Section { owner: ONLY_BOX, place: 0 };

/// The section that nobody has.
const FREE: Section = Section { owner: ONLY_BOX, place: PLACES - 1 };

/// The last engine: it has nothing, and waits for the wanted section.
const LAST: Engine = Engine(MAX_ENGINES - 1);

/// Handles the message that many times; how many records and lines came of it.
pub fn bench(kind: Kind, times: u32) -> (usize, usize) {
    let mut signal_box = full_box();
    let mut number = signal_box.keeper().last_answer(Engine(0)).map_or(0, |last| last.number);
    let mut totals = (0, 0);
    for turn in 0..times {
        let effects = match message(kind, turn, &mut number) {
            None => signal_box.handle(Input::Second),
            Some(message) => {
                let bytes = message.encode();
                signal_box.handle(Input::Message { from: ONLY_BOX, bytes: &bytes })
            }
        };
        totals.0 += effects.records.len();
        totals.1 += effects.said.len();
    }
    totals
}

/// The message of a turn; `number` is the last call number used by engine 0.
fn message(kind: Kind, turn: u32, number: &mut u32) -> Option<Message> {
    let engine = Engine(0);
    match kind {
        Kind::Call => {
            *number += 1;
            let kind = if turn.is_multiple_of(2) { CallKind::Take } else { CallKind::Free };
            Some(Message::Call(Call { kind, engine, section: FREE, number: *number }))
        }
        Kind::Repeat => Some(Message::Call(Call {
            kind: CallKind::Take,
            engine,
            section: WANTED,
            number: *number,
        })),
        Kind::Which => Some(Message::WhichChange { engine: LAST, section: WANTED }),
        Kind::Change => {
            Some(Message::Change(Change { section: WANTED, holder: Some(engine), change: 1 }))
        }
        Kind::Waits => {
            Some(Message::Waits(Waits { engine: LAST, section: WANTED, count: 1, change: 1 }))
        }
        Kind::Heard => {
            let sign = 1000 + u64::from(turn);
            Some(Message::Sign(Sign { to: LAST, count: 1, by: engine, sign }))
        }
        Kind::Second => None,
    }
}

/// Engine e has section e, but the last has none; all but engine 0 wait for section 0, and are noted.
fn full_box() -> SignalBox {
    let size = YardSize::new(1, MAX_ENGINES).expect("within the limits");
    let mut signal_box = SignalBox::new(ONLY_BOX, size);
    for engine in size.engines().filter(|&engine| engine != LAST) {
        let section = Section { owner: ONLY_BOX, place: engine.0 };
        run_out(&mut signal_box, Input::Take(engine, section));
    }
    for engine in size.engines().skip(1) {
        run_out(&mut signal_box, Input::Take(engine, WANTED));
    }
    signal_box
}

/// Handles an input and all that the box sends to itself because of it.
fn run_out(signal_box: &mut SignalBox, input: Input) {
    let mut on_the_way = VecDeque::new();
    let mut effects = signal_box.handle(input);
    loop {
        on_the_way.extend(sent(&effects));
        let Some(message) = on_the_way.pop_front() else {
            return;
        };
        effects = signal_box.handle(Input::Message { from: ONLY_BOX, bytes: &message.encode() });
    }
}

fn sent(effects: &Effects) -> Vec<Message> {
    let message = |said: &Said| match said {
        Said::Send(_, message) => Some(*message),
        _ => None,
    };
    effects.said.iter().filter_map(message).collect()
}

#[cfg(test)]
mod tests {
    use super::*;

    #[test]
    fn each_kind_does_what_it_is_for() {
        let expected = [
            (Kind::Call, (10, 10)),
            (Kind::Repeat, (0, 20)),
            (Kind::Which, (0, 10)),
            (Kind::Change, (0, 0)),
            (Kind::Waits, (0, 10)),
            (Kind::Heard, (10, 0)),
            (Kind::Second, (0, 10 * 63 * 3)),
        ];
        for (kind, totals) in expected {
            assert_eq!(bench(kind, 10), totals, "{kind:?}");
        }
    }

    #[test]
    fn the_box_is_full() {
        let signal_box = full_box();
        let state = signal_box.keeper().section(WANTED);
        assert_eq!((state.holder, state.queue.len()), (Some(Engine(0)), 63));
        assert_eq!(
            signal_box.home().engines().filter(|(_, state)| state.wait().is_some()).count(),
            63
        );
    }
}
