//! The keeper of a box's sections: who has each, who waits in what order, and the last call of each engine.

use crate::codec::{Answer, Call, CallKind, Change, Verdict};
use crate::numbers::{Engine, Refusal, Section, YardSize, PLACES};

/// One section: a queue stands only where somebody has the section.
#[derive(Clone, PartialEq, Eq, Default, Debug)]
pub struct SectionState {
    pub holder: Option<Engine>,
    pub queue: Vec<Engine>,
    /// One higher at every change of the holder.
    pub change: u32,
}

/// All that a keeper knows; all of it is stored.
#[derive(Clone, PartialEq, Eq, Debug)]
pub struct Keeper {
    sections: Vec<SectionState>,
    /// For each engine the answer to its last call here, which has that call's number.
    last: Vec<Option<Answer>>,
}

/// What became of a call.
#[derive(Clone, PartialEq, Eq, Debug)]
pub enum CallOutcome {
    /// It was the last one again; that one's answer.
    Repeated(Answer),
    /// Its number is neither the last nor the next.
    OutOfTurn,
    /// The change number is at its limit; the call's number isn't used up.
    AtLimit(Answer),
    /// Its number is used up: it was done, or refused by the answer.
    UsedUp { answer: Answer, passed_on: Option<Change> },
}

impl Keeper {
    pub fn new(size: YardSize) -> Keeper {
        Keeper {
            sections: vec![SectionState::default(); usize::from(PLACES)],
            last: vec![None; size.engine_count()],
        }
    }

    pub fn section(&self, section: Section) -> &SectionState {
        &self.sections[section.place_index()]
    }

    /// The sections by place.
    pub fn sections(&self) -> &[SectionState] {
        &self.sections
    }

    /// The answer to the engine's last call here.
    pub fn last_answer(&self, engine: Engine) -> Option<Answer> {
        self.last[engine.index()]
    }

    /// Who has the section, by which change.
    pub fn change_of(&self, section: Section) -> Change {
        let state = self.section(section);
        Change { section, holder: state.holder, change: state.change }
    }

    /// Deals with a call for a section of this keeper.
    pub fn call(&mut self, call: Call) -> CallOutcome {
        let last = self.last[call.engine.index()];
        if let Some(answer) = last.filter(|answer| answer.number == call.number) {
            return CallOutcome::Repeated(answer);
        }
        if last.map_or(0, |answer| answer.number).checked_add(1) != Some(call.number) {
            return CallOutcome::OutOfTurn;
        }
        match self.refusal(call) {
            Some(Refusal::Limit) => {
                CallOutcome::AtLimit(self.answer(call, Verdict::Refused(Refusal::Limit)))
            }
            Some(refusal) => self.use_up(call, Verdict::Refused(refusal), None),
            None => {
                let (verdict, passed_on) = self.perform(call);
                self.use_up(call, verdict, passed_on)
            }
        }
    }

    /// Why a call whose number is the next one is refused.
    fn refusal(&self, call: Call) -> Option<Refusal> {
        let Call { kind, engine, section, .. } = call;
        let state = self.section(section);
        let in_a_queue = || self.sections.iter().any(|section| section.queue.contains(&engine));
        let misplaced = match kind {
            CallKind::Take => state.holder == Some(engine),
            CallKind::Free => state.holder != Some(engine),
            CallKind::GiveUp => !state.queue.contains(&engine),
        };
        let changes = match kind {
            CallKind::Take => state.holder.is_none(),
            CallKind::Free => true,
            CallKind::GiveUp => false,
        };
        if kind != CallKind::GiveUp && in_a_queue() {
            Some(Refusal::Waiting)
        } else if misplaced {
            Some(Refusal::Possession)
        } else if changes && state.change == u32::MAX {
            Some(Refusal::Limit)
        } else {
            None
        }
    }

    /// Does a call that isn't refused.
    fn perform(&mut self, call: Call) -> (Verdict, Option<Change>) {
        let Call { kind, engine, section, .. } = call;
        let state = &mut self.sections[section.place_index()];
        match kind {
            CallKind::Take if state.holder.is_none() => {
                state.holder = Some(engine);
                state.change += 1;
                (Verdict::Done, None)
            }
            CallKind::Take => {
                state.queue.push(engine);
                (Verdict::Waits, None)
            }
            CallKind::Free => {
                state.holder = (!state.queue.is_empty()).then(|| state.queue.remove(0));
                state.change += 1;
                let passed_on = state.holder.map(|_| self.change_of(section));
                (Verdict::Done, passed_on)
            }
            CallKind::GiveUp => {
                state.queue.retain(|&waiter| waiter != engine);
                (Verdict::Done, None)
            }
        }
    }

    fn use_up(&mut self, call: Call, verdict: Verdict, passed_on: Option<Change>) -> CallOutcome {
        let answer = self.answer(call, verdict);
        self.last[call.engine.index()] = Some(answer);
        CallOutcome::UsedUp { answer, passed_on }
    }

    fn answer(&self, call: Call, verdict: Verdict) -> Answer {
        let Change { holder, change, .. } = self.change_of(call.section);
        Answer { engine: call.engine, number: call.number, verdict, holder, change }
    }
}
