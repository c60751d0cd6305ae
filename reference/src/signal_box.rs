//! A box: the keeper of its sections and the home of its engines, from one input to effects.

use crate::codec::{Call, Message, NextRecord, Record, Verdict, Waits};
use crate::effects::Effects;
use crate::home::{Home, Stored};
use crate::keeper::{CallOutcome, Keeper};
use crate::numbers::{BoxNumber, Engine, Refusal, Section, YardSize};

/// What comes to a box.
#[derive(Clone, Copy, Debug)]
pub enum Input<'a> {
    Take(Engine, Section),
    Free(Engine, Section),
    Second,
    Message { from: BoxNumber, bytes: &'a [u8] },
}

/// A box that runs.
#[derive(Clone, PartialEq, Eq, Debug)]
pub struct SignalBox {
    number: BoxNumber,
    size: YardSize,
    keeper: Keeper,
    home: Home,
}

/// A box that was opened from a file.
#[derive(Debug)]
pub struct Opened {
    pub signal_box: SignalBox,
    /// The bytes of its whole records; what comes after is a last record cut short.
    pub whole: usize,
}

/// A record that is whole and wrong.
#[derive(Clone, Copy, PartialEq, Eq, Debug)]
pub struct Damage {
    /// The byte at which that record begins.
    pub at: usize,
}

impl SignalBox {
    /// A box with an empty file.
    pub fn new(number: BoxNumber, size: YardSize) -> SignalBox {
        SignalBox { number, size, keeper: Keeper::new(size), home: Home::new(number, size) }
    }

    /// The box that the records of a file stand for.
    pub fn open(number: BoxNumber, size: YardSize, file: &[u8]) -> Result<Opened, Damage> {
        let mut signal_box = SignalBox::new(number, size);
        let mut whole = 0;
        while whole < file.len() {
            match Record::read(&file[whole..], size) {
                NextRecord::CutShort => break,
                NextRecord::Damaged => return Err(Damage { at: whole }),
                NextRecord::Whole(record, length) => {
                    signal_box.replay(&record).ok_or(Damage { at: whole })?;
                    whole += length;
                }
            }
        }
        Ok(Opened { signal_box, whole })
    }

    fn replay(&mut self, record: &Record) -> Option<()> {
        let Record::KeeperCall(call) = *record else {
            return self.home.replay(record);
        };
        let ours = call.section.owner == self.number;
        let outcome = ours.then(|| self.keeper.call(call))?;
        matches!(outcome, CallOutcome::UsedUp { .. }).then_some(())
    }

    pub fn number(&self) -> BoxNumber {
        self.number
    }

    pub fn keeper(&self) -> &Keeper {
        &self.keeper
    }

    pub fn home(&self) -> &Home {
        &self.home
    }

    /// All that a stop leaves as it was.
    pub fn stored(&self) -> (&Keeper, Vec<&Stored>) {
        (&self.keeper, self.home.engines().map(|(_, state)| &state.stored).collect())
    }

    /// The engines that are giving back, by number.
    pub fn giving_back(&self) -> impl Iterator<Item = Engine> + '_ {
        self.home.engines().filter(|(_, state)| state.is_giving_back()).map(|(engine, _)| engine)
    }

    /// Deals with one input.
    pub fn handle(&mut self, input: Input) -> Effects {
        let mut effects = Effects::default();
        let outcome = match input {
            Input::Take(engine, section) => self.home.take(engine, section, &mut effects),
            Input::Free(engine, section) => self.home.free(engine, section, &mut effects),
            Input::Second => {
                self.home.second(&mut effects);
                Ok(())
            }
            Input::Message { from, bytes } => match Message::decode(bytes, self.size) {
                Some(message) => self.receive(from, message, &mut effects),
                None => Err(Refusal::Invalid),
            },
        };
        if let Err(refusal) = outcome {
            effects.refuse(refusal);
        }
        effects
    }

    /// An error means that nothing changed and nothing is sent.
    fn receive(
        &mut self,
        from: BoxNumber,
        message: Message,
        effects: &mut Effects,
    ) -> Result<(), Refusal> {
        match message {
            Message::Call(call) => self.call(from, call, effects),
            Message::Answer(answer) => self.home.answer(from, answer, effects),
            Message::Change(change) => self.home.change(from, change, effects),
            Message::WhichChange { engine, section } => {
                self.expect_home_and_section(from, engine, section)?;
                effects.send(from, Message::Change(self.keeper.change_of(section)));
                Ok(())
            }
            Message::Sign(sign) => self.home.sign(from, sign, effects),
            Message::Waits(waits) => self.waits(from, waits, effects),
        }
    }

    /// A keeper hears of its own sections only, and of engines from their home only.
    fn expect_home_and_section(
        &self,
        from: BoxNumber,
        engine: Engine,
        section: Section,
    ) -> Result<(), Refusal> {
        let fits = section.owner == self.number && from == self.size.home(engine);
        fits.then_some(()).ok_or(Refusal::Invalid)
    }

    fn call(&mut self, from: BoxNumber, call: Call, effects: &mut Effects) -> Result<(), Refusal> {
        self.expect_home_and_section(from, call.engine, call.section)?;
        match self.keeper.call(call) {
            CallOutcome::Repeated(answer) => {
                effects.refuse(Refusal::OutOfTurn);
                effects.send(from, Message::Answer(answer));
            }
            CallOutcome::OutOfTurn => return Err(Refusal::OutOfTurn),
            CallOutcome::AtLimit(answer) => {
                effects.refuse(Refusal::Limit);
                effects.send(from, Message::Answer(answer));
            }
            CallOutcome::UsedUp { answer, passed_on } => {
                effects.record(Record::KeeperCall(call));
                if let Verdict::Refused(refusal) = answer.verdict {
                    effects.refuse(refusal);
                }
                effects.send(from, Message::Answer(answer));
                if let Some(change) = passed_on {
                    self.tell_concerned(Message::Change(change), call.section, effects);
                }
            }
        }
        Ok(())
    }

    /// Sends to the homes of the holder and of all in the queue, each once.
    fn tell_concerned(&self, message: Message, section: Section, effects: &mut Effects) {
        let state = self.keeper.section(section);
        for home in self.size.boxes() {
            let concerned = |engine: &Engine| self.size.home(*engine) == home;
            if state.holder.iter().chain(&state.queue).any(concerned) {
                effects.send(home, message);
            }
        }
    }

    fn waits(
        &mut self,
        from: BoxNumber,
        waits: Waits,
        effects: &mut Effects,
    ) -> Result<(), Refusal> {
        let Waits { engine, section, change, .. } = waits;
        if section.owner != self.number {
            return if from == section.owner {
                self.home.note(waits, effects);
                Ok(())
            } else {
                Err(Refusal::Invalid)
            };
        }
        if from != self.size.home(engine) {
            return Err(Refusal::Invalid);
        }
        let state = self.keeper.section(section);
        if let Some(holder) = state.holder.filter(|_| state.change == change) {
            match self.size.home(holder) {
                home if home == self.number => self.home.note(waits, effects),
                home => effects.send(home, Message::Waits(waits)),
            }
        }
        Ok(())
    }
}

#[cfg(test)]
mod tests {
    use super::*;
    use crate::codec::{Answer, Beginning, CallKind, Change, Sign};
    use crate::effects::Said;
    use crate::random::Random;

    fn size() -> YardSize {
        YardSize::new(3, 5).unwrap()
    }

    fn random_section(random: &mut Random) -> Section {
        Section { owner: BoxNumber(random.below(3) as u8), place: random.below(2) as u8 }
    }

    fn random_verdict(random: &mut Random) -> Verdict {
        match random.below(5) {
            0 => Verdict::Refused(Refusal::Waiting),
            1 => Verdict::Refused(Refusal::Possession),
            2 => Verdict::Refused(Refusal::Limit),
            3 => Verdict::Done,
            _ => Verdict::Waits,
        }
    }

    /// Any message at all, forged ones too, with numbers that are often the right ones.
    fn random_message(random: &mut Random) -> Message {
        let engine = Engine(random.below(5) as u8);
        let other = Engine(random.below(5) as u8);
        let holder = random.chance(80).then_some(other);
        let section = random_section(random);
        let (number, change) = (random.below(12) as u32, random.below(6) as u32);
        let kinds = [CallKind::Take, CallKind::Free, CallKind::GiveUp];
        let kind = kinds[random.below(3)];
        let verdict = random_verdict(random);
        match random.below(6) {
            0 => Message::Call(Call { kind, engine, section, number }),
            1 => Message::Answer(Answer { engine, number, verdict, holder, change }),
            2 => Message::Change(Change { section, holder, change }),
            3 => Message::WhichChange { engine, section },
            4 => Message::Sign(Sign {
                to: engine,
                count: change,
                by: other,
                sign: random.below(60) as u64,
            }),
            _ => Message::Waits(Waits { engine, section, count: number, change }),
        }
    }

    fn random_step(random: &mut Random, signal_box: &mut SignalBox) -> Effects {
        let engine = Engine(random.below(5) as u8);
        let section = random_section(random);
        let from = BoxNumber(random.below(3) as u8);
        let message = random_message(random).encode();
        match random.below(10) {
            0 => signal_box.handle(Input::Take(engine, section)),
            1 => signal_box.handle(Input::Free(engine, section)),
            2 => signal_box.handle(Input::Second),
            _ => signal_box.handle(Input::Message { from, bytes: &message }),
        }
    }

    #[test]
    fn what_is_stored_changes_by_records_only_and_the_file_gives_it_back() {
        let mut random = Random::new(1);
        for _ in 0..300 {
            let mut signal_box = SignalBox::new(BoxNumber(1), size());
            let mut file = Vec::new();
            for _ in 0..300 {
                let before = signal_box.clone();
                let effects = random_step(&mut random, &mut signal_box);
                assert!(!effects.records.is_empty() || before.stored() == signal_box.stored());
                effects.records.iter().for_each(|record| record.write(&mut file));
            }
            let opened = SignalBox::open(BoxNumber(1), size(), &file).unwrap();
            assert_eq!(opened.signal_box.stored(), signal_box.stored());
            assert_eq!(opened.whole, file.len());
        }
    }

    #[test]
    fn a_file_cut_anywhere_opens_up_to_the_last_whole_record() {
        let mut random = Random::new(2);
        let mut signal_box = SignalBox::new(BoxNumber(1), size());
        let (mut file, mut ends) = (Vec::new(), vec![0]);
        for _ in 0..300 {
            for record in random_step(&mut random, &mut signal_box).records {
                record.write(&mut file);
                ends.push(file.len());
            }
        }
        for length in 0..=file.len() {
            let opened = SignalBox::open(BoxNumber(1), size(), &file[..length]).unwrap();
            let last = ends.iter().rev().find(|&&end| end <= length);
            assert_eq!(Some(&opened.whole), last);
        }
    }

    fn file_of(records: &[Record]) -> Vec<u8> {
        let mut file = Vec::new();
        records.iter().for_each(|record| record.write(&mut file));
        file
    }

    fn take(number: u32, owner: u8) -> Call {
        let section = Section { owner: BoxNumber(owner), place: 0 };
        Call { kind: CallKind::Take, engine: Engine(1), section, number }
    }

    fn beginning(count: u32, own: u64) -> Record {
        let section = Section { owner: BoxNumber(0), place: 0 };
        let (engine, for_whom) = (Engine(1), Engine(0));
        Record::Beginning(Beginning { engine, section, change: 1, for_whom, count, own })
    }

    #[test]
    fn wrong_records_are_damage_at_their_first_byte() {
        let right = Record::HomeCall(take(1, 0));
        let foreign = Call { engine: Engine(0), ..take(1, 0) };
        let wrong = [
            Record::HomeCall(take(1, 0)),
            Record::HomeCall(take(3, 0)),
            Record::HomeCall(foreign),
            Record::KeeperCall(take(1, 0)),
            Record::KeeperCall(take(2, 1)),
            Record::KeeperCall(take(0, 1)),
            Record::Heard { engine: Engine(0), sign: 5 },
            beginning(1, 7),
        ];
        for record in wrong {
            let opened = SignalBox::open(BoxNumber(1), size(), &file_of(&[right, record]));
            assert_eq!(opened.unwrap_err(), Damage { at: 9 }, "{record:?}");
        }
    }

    /// A box whose engine 1 waits, with that count and sign.
    fn waiting_box(count: u32, shown: u64) -> SignalBox {
        let heard = Record::Heard { engine: Engine(1), sign: shown };
        let file = file_of(&[Record::HomeCall(take(1, 0)), beginning(count, 6), heard]);
        SignalBox::open(BoxNumber(1), size(), &file).unwrap().signal_box
    }

    #[test]
    fn a_count_or_a_sign_at_its_limit_refuses_a_beginning() {
        let section = Section { owner: BoxNumber(0), place: 0 };
        let change = Message::Change(Change { section, holder: Some(Engine(2)), change: 2 });
        for (count, shown) in [(u32::MAX, 6), (1, u64::MAX)] {
            let mut signal_box = waiting_box(count, shown);
            let before = signal_box.clone();
            let effects =
                signal_box.handle(Input::Message { from: BoxNumber(0), bytes: &change.encode() });
            assert_eq!(effects.said, [Said::Refused(Refusal::Limit)]);
            assert_eq!(signal_box, before);
        }
    }
}
