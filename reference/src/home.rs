//! The home of a box's engines: their signs, their calls, and who waits for what they hold.

use crate::codec::{
    Answer, Beginning, Call, CallKind, Change, Message, Record, Sign, Verdict, Waits,
};
use crate::effects::Effects;
use crate::numbers::{BoxNumber, Engine, Refusal, Section, YardSize, MAX_BOXES, PLACES};

/// A set of sections, one bit for each place of a box.
#[derive(Clone, PartialEq, Eq, Default, Debug)]
pub struct SectionSet {
    places: [u64; MAX_BOXES as usize],
}

impl SectionSet {
    pub fn contains(&self, section: Section) -> bool {
        self.places[section.owner.index()] >> section.place & 1 == 1
    }

    pub fn insert(&mut self, section: Section) {
        self.places[section.owner.index()] |= 1 << section.place;
    }

    pub fn remove(&mut self, section: Section) {
        self.places[section.owner.index()] &= !(1 << section.place);
    }

    pub fn is_empty(&self) -> bool {
        self.places.iter().all(|&places| places == 0)
    }

    /// The sections by box and place.
    pub fn iter(&self) -> impl Iterator<Item = Section> + '_ {
        let owners = (0..MAX_BOXES).zip(self.places).filter(|(_, places)| *places != 0);
        owners.flat_map(|(owner, places)| {
            let inside = (0..PLACES).filter(move |place| places >> place & 1 == 1);
            inside.map(move |place| Section { owner: BoxNumber(owner), place })
        })
    }
}

/// What an engine waits for: a section, of that change, which `for_whom` has.
#[derive(Clone, Copy, PartialEq, Eq, Debug)]
pub struct Wait {
    pub for_whom: Engine,
    pub section: Section,
    pub change: u32,
}

/// The last of an engine's own records.
#[derive(Clone, Copy, PartialEq, Eq, Debug)]
pub enum Mode {
    Idle,
    Calling(Call),
    Waiting(Wait),
}

/// How the mode's business ended.
#[derive(Clone, Copy, PartialEq, Eq, Debug)]
pub enum Ending {
    /// Not known to have ended.
    Pending,
    /// The engine has the mode's section.
    Had,
    /// It ended otherwise.
    Closed,
}

/// What an engine last asked for, frees left aside.
#[derive(Clone, Copy, PartialEq, Eq, Debug)]
pub enum LastClaim {
    None,
    Take,
    GiveUp,
}

/// What of an engine is rebuilt from the file.
#[derive(Clone, PartialEq, Eq, Debug)]
pub struct Stored {
    pub shown: u64,
    pub own: u64,
    /// How often it began to wait.
    pub count: u32,
    /// The last call number used with each box.
    pub numbers: Vec<u32>,
    pub mode: Mode,
    pub kept: SectionSet,
    pub last_claim: LastClaim,
}

/// An engine at its home: what is stored, and how its mode's business is known to have ended.
#[derive(Clone, PartialEq, Eq, Debug)]
pub struct EngineState {
    pub stored: Stored,
    pub ending: Ending,
}

impl EngineState {
    fn new(engine: Engine, size: YardSize) -> EngineState {
        let sign = u64::from(engine.0);
        let stored = Stored {
            shown: sign,
            own: sign,
            count: 0,
            numbers: vec![0; size.box_count()],
            mode: Mode::Idle,
            kept: SectionSet::default(),
            last_claim: LastClaim::None,
        };
        EngineState { stored, ending: Ending::Pending }
    }

    /// The call that isn't answered yet.
    pub fn open_call(&self) -> Option<Call> {
        match (self.stored.mode, self.ending) {
            (Mode::Calling(call), Ending::Pending) => Some(call),
            _ => None,
        }
    }

    /// The wait that stands.
    pub fn wait(&self) -> Option<Wait> {
        match (self.stored.mode, self.ending) {
            (Mode::Waiting(wait), Ending::Pending) => Some(wait),
            _ => None,
        }
    }

    pub fn holds(&self, section: Section) -> bool {
        self.stored.kept.contains(section) || self.had() == Some(section)
    }

    /// All sections that it holds.
    pub fn held(&self) -> SectionSet {
        let mut held = self.stored.kept.clone();
        if let Some(section) = self.had() {
            held.insert(section);
        }
        held
    }

    pub fn is_giving_back(&self) -> bool {
        let holds_one = !self.stored.kept.is_empty() || self.had().is_some();
        self.stored.last_claim == LastClaim::GiveUp && holds_one
    }

    /// The mode's section, if it is had.
    fn had(&self) -> Option<Section> {
        match (self.stored.mode, self.ending) {
            (Mode::Calling(call), Ending::Had) => Some(call.section),
            (Mode::Waiting(wait), Ending::Had) => Some(wait.section),
            _ => None,
        }
    }

    fn next_number(&self, owner: BoxNumber) -> Option<u32> {
        self.stored.numbers[owner.index()].checked_add(1)
    }

    /// The mode becomes a call. A section taken or waited for before must have been got, unless it is given up now.
    fn apply_call(&mut self, call: Call) {
        let asked = match self.stored.mode {
            Mode::Calling(Call { kind: CallKind::Take, section, .. }) => Some(section),
            Mode::Waiting(wait) => Some(wait.section),
            _ => None,
        };
        let gives_up = |section| call.kind == CallKind::GiveUp && call.section == section;
        if let Some(section) = asked.filter(|&section| !gives_up(section)) {
            self.stored.kept.insert(section);
        }
        match call.kind {
            CallKind::Take => self.stored.last_claim = LastClaim::Take,
            CallKind::Free => self.stored.kept.remove(call.section),
            CallKind::GiveUp => self.stored.last_claim = LastClaim::GiveUp,
        }
        self.stored.numbers[call.section.owner.index()] = call.number;
        self.stored.mode = Mode::Calling(call);
        self.ending = Ending::Pending;
    }

    fn apply_beginning(&mut self, beginning: Beginning) {
        let Beginning { section, change, for_whom, count, own, .. } = beginning;
        self.stored.count = count;
        self.stored.own = own;
        self.stored.shown = own;
        self.stored.mode = Mode::Waiting(Wait { for_whom, section, change });
        self.ending = Ending::Pending;
    }
}

/// The word of an engine that it waits, by that count, for a section held here.
#[derive(Clone, Copy, PartialEq, Eq, Debug)]
pub struct Note {
    pub section: Section,
    pub count: u32,
}

/// The home of the engines whose number leaves the box's when divided by the number of boxes.
#[derive(Clone, PartialEq, Eq, Debug)]
pub struct Home {
    number: BoxNumber,
    size: YardSize,
    /// Engine `e` stands at `e / boxes`.
    engines: Vec<EngineState>,
    /// For each engine of the yard.
    notes: Vec<Option<Note>>,
}

/// What turned-away input gives: a refusal, nothing having changed.
type Outcome = Result<(), Refusal>;

impl Home {
    pub fn new(number: BoxNumber, size: YardSize) -> Home {
        let ours = size.engines().filter(|&engine| size.home(engine) == number);
        Home {
            number,
            size,
            engines: ours.map(|engine| EngineState::new(engine, size)).collect(),
            notes: vec![None; size.engine_count()],
        }
    }

    /// An engine, if its home is here.
    pub fn engine(&self, engine: Engine) -> Option<&EngineState> {
        (self.size.home(engine) == self.number).then(|| self.state(engine))
    }

    /// The engines at home here, by number.
    pub fn engines(&self) -> impl Iterator<Item = (Engine, &EngineState)> {
        self.numbers().zip(&self.engines)
    }

    /// The numbers of the engines at home here.
    fn numbers(&self) -> impl Iterator<Item = Engine> {
        let (number, boxes) = (self.number.0, self.size.box_count() as u8);
        (0..self.engines.len() as u8).map(move |index| Engine(number + index * boxes))
    }

    fn state(&self, engine: Engine) -> &EngineState {
        &self.engines[engine.index() / self.size.box_count()]
    }

    fn state_mut(&mut self, engine: Engine) -> &mut EngineState {
        &mut self.engines[engine.index() / self.size.box_count()]
    }

    fn ours(&self, engine: Engine) -> Result<&EngineState, Refusal> {
        self.engine(engine).ok_or(Refusal::Invalid)
    }

    // Driver's lines.

    pub fn take(&mut self, engine: Engine, section: Section, effects: &mut Effects) -> Outcome {
        let state = self.ours(engine)?;
        if state.open_call().is_some() || state.is_giving_back() {
            return Err(Refusal::OutOfTurn);
        }
        if state.wait().is_some() {
            return Err(Refusal::Waiting);
        }
        if state.holds(section) {
            return Err(Refusal::Possession);
        }
        let call = self.next_call(CallKind::Take, engine, section)?;
        self.call(call, effects);
        Ok(())
    }

    pub fn free(&mut self, engine: Engine, section: Section, effects: &mut Effects) -> Outcome {
        let state = self.ours(engine)?;
        if state.open_call().is_some() {
            return Err(Refusal::OutOfTurn);
        }
        if state.wait().is_some() {
            return Err(Refusal::Waiting);
        }
        if !state.holds(section) {
            return Err(Refusal::Possession);
        }
        let call = self.next_call(CallKind::Free, engine, section)?;
        for note in &mut self.notes {
            *note = note.filter(|note| note.section != section);
        }
        self.call(call, effects);
        Ok(())
    }

    /// Says again what may have been lost.
    pub fn second(&self, effects: &mut Effects) {
        for (engine, state) in self.engines() {
            if let Some(call) = state.open_call() {
                effects.send(call.section.owner, Message::Call(call));
            }
            if let Some(Wait { section, .. }) = state.wait() {
                self.say_waits(engine, effects);
                effects.send(section.owner, Message::WhichChange { engine, section });
            }
            self.tell_waiters(engine, effects);
        }
    }

    // Messages.

    pub fn answer(&mut self, from: BoxNumber, answer: Answer, effects: &mut Effects) -> Outcome {
        let Answer { engine, number, verdict, holder, change } = answer;
        let expected = |call: &Call| call.section.owner == from && call.number == number;
        let call = self.ours(engine)?.open_call().filter(expected).ok_or(Refusal::OutOfTurn)?;
        match (call.kind, verdict) {
            (CallKind::Take, Verdict::Done) => {
                self.end(engine, Ending::Had);
                effects.had(engine, call.section);
            }
            (CallKind::Take, Verdict::Waits) => {
                let for_whom = holder.filter(|&other| other != engine).ok_or(Refusal::OutOfTurn)?;
                self.begin(engine, Wait { for_whom, section: call.section, change }, effects)?;
            }
            (CallKind::Free | CallKind::GiveUp, Verdict::Done) => self.end(engine, Ending::Closed),
            (CallKind::Free | CallKind::GiveUp, Verdict::Waits) => return Err(Refusal::OutOfTurn),
            (_, Verdict::Refused(Refusal::Limit)) => return Err(Refusal::Limit),
            (CallKind::Take, Verdict::Refused(refusal)) => {
                self.end(engine, Ending::Closed);
                effects.refuse(refusal);
            }
            (CallKind::Free | CallKind::GiveUp, Verdict::Refused(refusal)) => {
                let has_it = holder == Some(engine);
                self.end(engine, if has_it { Ending::Had } else { Ending::Closed });
                effects.refuse(refusal);
            }
        }
        Ok(())
    }

    pub fn change(&mut self, from: BoxNumber, news: Change, effects: &mut Effects) -> Outcome {
        let Change { section, holder, change } = news;
        if from != section.owner {
            return Err(Refusal::Invalid);
        }
        for engine in self.numbers() {
            let concerned = |wait: Wait| wait.section == section && wait.change < change;
            if !self.state(engine).wait().is_some_and(concerned) {
                continue;
            }
            match holder {
                Some(holder) if holder == engine => {
                    self.end(engine, Ending::Had);
                    effects.had(engine, section);
                }
                Some(for_whom) => {
                    let begun = self.begin(engine, Wait { for_whom, section, change }, effects);
                    begun.unwrap_or_else(|refusal| effects.refuse(refusal));
                }
                None => {}
            }
        }
        Ok(())
    }

    pub fn sign(&mut self, from: BoxNumber, told: Sign, effects: &mut Effects) -> Outcome {
        let Sign { to: engine, count, by, sign } = told;
        let state = self.ours(engine)?;
        if from != self.size.home(by) {
            return Err(Refusal::Invalid);
        }
        let (shown, own) = (state.stored.shown, state.stored.own);
        let wait = state.wait().filter(|wait| wait.for_whom == by && state.stored.count == count);
        let wait = wait.ok_or(Refusal::Stale)?;
        if sign > shown {
            self.commit(Record::Heard { engine, sign }, effects);
            self.tell_waiters(engine, effects);
        } else if sign == own && own == shown {
            let call = self.next_call(CallKind::GiveUp, engine, wait.section)?;
            effects.give_back(engine);
            self.call(call, effects);
        }
        Ok(())
    }

    /// Notes a waiter for a section that one of ours holds, and tells it that one's sign.
    pub fn note(&mut self, waits: Waits, effects: &mut Effects) {
        let Waits { engine, section, count, .. } = waits;
        let holder = self.engines().find(|(_, state)| state.holds(section)).map(|(ours, _)| ours);
        let newer = self.notes[engine.index()].is_some_and(|note| note.count > count);
        if let Some(holder) = holder.filter(|_| !newer) {
            let note = Note { section, count };
            self.notes[engine.index()] = Some(note);
            self.tell(holder, engine, note, effects);
        }
    }

    // Steps that several of the above have in common.

    fn next_call(&self, kind: CallKind, engine: Engine, section: Section) -> Result<Call, Refusal> {
        let number = self.state(engine).next_number(section.owner).ok_or(Refusal::Limit)?;
        Ok(Call { kind, engine, section, number })
    }

    fn call(&mut self, call: Call, effects: &mut Effects) {
        self.commit(Record::HomeCall(call), effects);
        effects.send(call.section.owner, Message::Call(call));
    }

    fn begin(&mut self, engine: Engine, wait: Wait, effects: &mut Effects) -> Outcome {
        let stored = &self.state(engine).stored;
        let count = stored.count.checked_add(1).ok_or(Refusal::Limit)?;
        let own = next_sign(stored.shown, engine, self.size).ok_or(Refusal::Limit)?;
        let Wait { for_whom, section, change } = wait;
        let beginning = Beginning { engine, section, change, for_whom, count, own };
        self.commit(Record::Beginning(beginning), effects);
        self.say_waits(engine, effects);
        self.tell_waiters(engine, effects);
        Ok(())
    }

    fn say_waits(&self, engine: Engine, effects: &mut Effects) {
        let state = self.state(engine);
        if let Some(Wait { section, change, .. }) = state.wait() {
            let waits = Waits { engine, section, count: state.stored.count, change };
            effects.send(section.owner, Message::Waits(waits));
        }
    }

    /// Tells the engine's sign to all that wait for it.
    fn tell_waiters(&self, engine: Engine, effects: &mut Effects) {
        let state = self.state(engine);
        for (waiter, note) in self.size.engines().zip(&self.notes) {
            if let Some(note) = note.filter(|note| state.holds(note.section)) {
                self.tell(engine, waiter, note, effects);
            }
        }
    }

    fn tell(&self, by: Engine, to: Engine, note: Note, effects: &mut Effects) {
        let sign = self.state(by).stored.shown;
        let told = Sign { to, count: note.count, by, sign };
        effects.send(self.size.home(to), Message::Sign(told));
    }

    fn end(&mut self, engine: Engine, ending: Ending) {
        self.state_mut(engine).ending = ending;
    }

    fn commit(&mut self, record: Record, effects: &mut Effects) {
        self.apply(&record);
        effects.record(record);
    }

    /// Does what a home's record stands for, running and in replay alike.
    fn apply(&mut self, record: &Record) {
        match *record {
            Record::KeeperCall(_) => {}
            Record::Beginning(beginning) => {
                self.state_mut(beginning.engine).apply_beginning(beginning);
            }
            Record::Heard { engine, sign } => self.state_mut(engine).stored.shown = sign,
            Record::HomeCall(call) => self.state_mut(call.engine).apply_call(call),
        }
    }

    /// Replays a record of one of our engines; `None` if it can't be one of this home's.
    pub fn replay(&mut self, record: &Record) -> Option<()> {
        let fits = match *record {
            Record::KeeperCall(_) => false,
            Record::Beginning(Beginning { engine, own, .. }) => {
                let remainder = own % self.size.engine_count() as u64;
                self.engine(engine).is_some() && remainder == u64::from(engine.0)
            }
            Record::Heard { engine, .. } => self.engine(engine).is_some(),
            Record::HomeCall(Call { engine, section, number, .. }) => {
                self.engine(engine)?.next_number(section.owner) == Some(number)
            }
        };
        fits.then(|| self.apply(record))
    }
}

/// The lowest number above the one shown that leaves the engine's number when divided by that of engines.
fn next_sign(shown: u64, engine: Engine, size: YardSize) -> Option<u64> {
    let engines = size.engine_count() as u64;
    let near = (shown - shown % engines).checked_add(u64::from(engine.0))?;
    if near > shown {
        Some(near)
    } else {
        near.checked_add(engines)
    }
}

#[cfg(test)]
mod tests {
    use super::*;

    #[test]
    fn the_next_sign_is_the_lowest_above_with_the_remainder() {
        for engines in 1..=8u8 {
            let size = YardSize::new(1, engines).unwrap();
            for (engine, shown) in size.engines().flat_map(|e| (0..40).map(move |s| (e, s))) {
                let fits = |n: &u64| n % u64::from(engines) == u64::from(engine.0);
                assert_eq!(next_sign(shown, engine, size), (shown + 1..).find(fits));
            }
        }
    }

    #[test]
    fn the_next_sign_stops_at_eight_bytes() {
        let size = YardSize::new(1, 2).unwrap();
        assert_eq!(next_sign(u64::MAX - 1, Engine(1), size), Some(u64::MAX));
        assert_eq!(next_sign(u64::MAX - 1, Engine(0), size), None);
        assert_eq!(next_sign(u64::MAX, Engine(1), size), None);
    }

    #[test]
    fn a_set_of_sections_has_what_was_put_in() {
        let section = |owner, place| Section { owner: BoxNumber(owner), place };
        let mut set = SectionSet::default();
        set.insert(section(15, 63));
        set.insert(section(0, 5));
        assert!(set.contains(section(15, 63)) && !set.contains(section(15, 62)));
        assert_eq!(set.iter().collect::<Vec<_>>(), [section(0, 5), section(15, 63)]);
        set.remove(section(15, 63));
        set.remove(section(0, 5));
        assert!(set.is_empty());
    }
}
