//! Plays a script and checks, by its own eyes on the sections, what the yard promises.

use crate::codec::{Answer, Message, Verdict};
use crate::home::{EngineState, SectionSet};
use crate::numbers::{Engine, Refusal, YardSize};
use crate::rings::WaitsSeen;
use crate::script::{Line, LineReader};
use crate::signal_box::{Input, SignalBox};
use crate::yard::{Command, Envelope, Event, Yard};
use std::panic::{catch_unwind, AssertUnwindSafe};

/// Rounds of seconds and deliveries after a script, within which everything must settle.
const ROUNDS: usize = 200;

/// How often things happened.
#[derive(Clone, Default, Debug)]
pub struct Statistics {
    pub lines: usize,
    pub messages: usize,
    pub stops: usize,
    pub hads: usize,
    pub rings: usize,
    pub longest_ring: usize,
    pub tellings: usize,
    /// Answers of a keeper that refuse a call.
    pub refused_calls: usize,
    /// Refusals of lines, by number.
    pub refused_lines: [usize; 8],
    /// Refusals of messages, by number.
    pub refused_messages: [usize; 8],
}

impl Statistics {
    /// Adds those of another script.
    pub fn add(&mut self, other: &Statistics) {
        self.lines += other.lines;
        self.messages += other.messages;
        self.stops += other.stops;
        self.hads += other.hads;
        self.rings += other.rings;
        self.longest_ring = self.longest_ring.max(other.longest_ring);
        self.tellings += other.tellings;
        self.refused_calls += other.refused_calls;
        for refusal in Refusal::ALL.map(|refusal| usize::from(refusal.number())) {
            self.refused_lines[refusal] += other.refused_lines[refusal];
            self.refused_messages[refusal] += other.refused_messages[refusal];
        }
    }

    fn count(&mut self, command: Command, event: &Event, size: YardSize) {
        match event {
            Event::Had(..) => self.hads += 1,
            Event::GiveBack(_) => self.tellings += 1,
            Event::Refused(refusal) => {
                let number = usize::from(refusal.number());
                match command {
                    Command::Deliver(_) | Command::Cut(..) => self.refused_messages[number] += 1,
                    _ => self.refused_lines[number] += 1,
                }
            }
            Event::Sent(_, Envelope { bytes, .. }) => {
                self.messages += 1;
                let refused = matches!(
                    Message::decode(bytes, size),
                    Some(Message::Answer(Answer { verdict: Verdict::Refused(_), .. }))
                );
                self.refused_calls += usize::from(refused);
            }
            Event::GivingBack(_) | Event::Shown(_) => {}
        }
    }
}

/// Whether an engine was told to give back in its present wait.
#[derive(Clone, Copy, PartialEq, Eq, Debug)]
enum Telling {
    NotTold,
    Told,
}

/// A yard under the eyes of a checker.
pub struct CheckedYard {
    yard: Yard,
    waits: WaitsSeen,
    told: Vec<Telling>,
    /// For each engine what its driver has: told `had`, and not freed since.
    driven: Vec<SectionSet>,
    /// For each message whether it ever arrived whole.
    delivered: Vec<bool>,
    statistics: Statistics,
}

/// What was found wrong, if anything was.
type Verdicts = Result<(), String>;

impl CheckedYard {
    pub fn new(size: YardSize) -> CheckedYard {
        CheckedYard {
            yard: Yard::new(size),
            waits: WaitsSeen::none(size),
            told: vec![Telling::NotTold; size.engine_count()],
            driven: vec![SectionSet::default(); size.engine_count()],
            delivered: Vec::new(),
            statistics: Statistics::default(),
        }
    }

    pub fn yard(&self) -> &Yard {
        &self.yard
    }

    pub fn statistics(&self) -> &Statistics {
        &self.statistics
    }

    /// Plays one command and checks all that it did.
    pub fn play(&mut self, command: Command) -> Result<Vec<Event>, String> {
        let stopped = match command {
            Command::Stop(number) => Some(self.yard.boxes()[number.index()].clone()),
            _ => None,
        };
        let played = catch_unwind(AssertUnwindSafe(|| self.yard.play(command)));
        let events = played.map_err(|_| "the yard panics".to_string())?;
        let after = self.observe()?;
        self.check_tellings(&events)?;
        self.check_rings_stay(&after)?;
        self.note_events(command, &events);
        self.note_waits(after);
        self.check_holders()?;
        if let Some(before) = stopped {
            self.check_stop(&before)?;
        }
        if let Command::Deliver(number) = command {
            self.check_repetition(number)?;
        }
        Ok(events)
    }

    fn observe(&self) -> Result<WaitsSeen, String> {
        let keepers = self.yard.boxes().iter().map(|it| (it.number(), it.keeper()));
        WaitsSeen::observe(self.yard.size(), keepers)
    }

    fn engine(&self, engine: Engine) -> &EngineState {
        let state = self.yard.home_of(engine).home().engine(engine);
        state.expect("an engine is at home at its home")
    }

    /// Whoever is told was in a ring, is the highest of it, and is told alone.
    fn check_tellings(&mut self, events: &[Event]) -> Verdicts {
        for event in events {
            let Event::GiveBack(engine) = *event else {
                continue;
            };
            let Some(ring) = self.waits.ring_of(engine) else {
                return Err(format!("engine {engine} is told and is in no ring"));
            };
            let own = |engine: &Engine| self.engine(*engine).stored.own;
            if let Some(higher) = ring.iter().find(|other| own(other) > own(&engine)) {
                return Err(format!("engine {engine} is told, and {higher} has a higher own sign"));
            }
            if let Some(other) = ring.iter().find(|it| self.told[it.index()] == Telling::Told) {
                return Err(format!(
                    "engine {engine} is told, and {other} of its ring was already"
                ));
            }
            self.told[engine.index()] = Telling::Told;
        }
        Ok(())
    }

    /// A ring of which nobody was told stays.
    fn check_rings_stay(&mut self, after: &WaitsSeen) -> Verdicts {
        for ring in self.waits.rings() {
            let untold = ring.iter().all(|engine| self.told[engine.index()] == Telling::NotTold);
            if untold && !after.agrees(&self.waits, &ring) {
                return Err(format!("the ring {ring:?} is gone, and nobody of it was told"));
            }
        }
        Ok(())
    }

    fn note_events(&mut self, command: Command, events: &[Event]) {
        let refused = events.iter().any(|event| matches!(event, Event::Refused(_)));
        match command {
            Command::Free(engine, section) if !refused => {
                self.driven[engine.index()].remove(section);
            }
            Command::Stop(_) => self.statistics.stops += 1,
            Command::Deliver(number) if number > 0 && number <= self.delivered.len() => {
                self.delivered[number - 1] = true;
            }
            _ => {}
        }
        for event in events {
            self.statistics.count(command, event, self.yard.size());
            if let Event::Had(engine, section) = *event {
                self.driven[engine.index()].insert(section);
            }
        }
        self.delivered.resize(self.yard.sent().len(), false);
    }

    fn note_waits(&mut self, after: WaitsSeen) {
        for ring in after.rings() {
            if !self.waits.agrees(&after, &ring) {
                self.statistics.rings += 1;
                self.statistics.longest_ring = self.statistics.longest_ring.max(ring.len());
            }
        }
        for engine in self.yard.size().engines() {
            let section = |waits: &WaitsSeen| waits.edge(engine).map(|edge| edge.section);
            if section(&after) != section(&self.waits) {
                self.told[engine.index()] = Telling::NotTold;
            }
        }
        self.waits = after;
    }

    /// What drivers have, and what homes think that their engines hold, the keepers know as theirs.
    fn check_holders(&self) -> Verdicts {
        for engine in self.yard.size().engines() {
            let driven = &self.driven[engine.index()];
            let held = self.engine(engine).held();
            for section in driven.iter().chain(held.iter()) {
                let keeper = self.yard.boxes()[section.owner.index()].keeper();
                let holder = keeper.section(section).holder;
                if holder != Some(engine) {
                    let holder = holder.map_or("nobody".to_string(), |other| other.to_string());
                    return Err(format!("engine {engine} has {section}, whose holder is {holder}"));
                }
            }
        }
        Ok(())
    }

    /// A stop leaves what is stored as it was.
    fn check_stop(&self, before: &SignalBox) -> Verdicts {
        let after = &self.yard.boxes()[before.number().index()];
        if after.stored() != before.stored() {
            return Err(format!("box {} comes up with another state", before.number()));
        }
        Ok(())
    }

    /// The same message again changes nothing.
    fn check_repetition(&self, number: usize) -> Verdicts {
        let Some(Envelope { from, to, bytes }) = self.yard.message(number) else {
            return Ok(());
        };
        let signal_box = &self.yard.boxes()[to.index()];
        let mut copy = signal_box.clone();
        let effects = copy.handle(Input::Message { from: *from, bytes });
        if copy != *signal_box || !effects.records.is_empty() {
            return Err(format!("message {number} again changes box {to}"));
        }
        Ok(())
    }

    /// Lets everything arrive, again and again, and drivers free what they were told to: then no ring stands.
    pub fn finish(&mut self) -> Verdicts {
        let mut unsettled = String::new();
        for _ in 0..ROUNDS {
            self.deliver_all()?;
            match self.unsettled() {
                None => return Ok(()),
                Some(reason) => unsettled = reason,
            }
            self.free_what_is_given_back()?;
            for number in self.yard.size().boxes() {
                self.play(Command::Second(number))?;
            }
        }
        Err(format!("after {ROUNDS} rounds: {unsettled}"))
    }

    fn deliver_all(&mut self) -> Verdicts {
        let mut number = 1;
        while number <= self.yard.sent().len() {
            if !self.delivered[number - 1] {
                self.play(Command::Deliver(number))?;
            }
            number += 1;
        }
        Ok(())
    }

    fn free_what_is_given_back(&mut self) -> Verdicts {
        for engine in self.yard.size().engines() {
            let state = self.engine(engine);
            let free_to_call = state.is_giving_back() && state.open_call().is_none();
            let section = state.held().iter().next().filter(|_| free_to_call);
            if let Some(section) = section {
                self.play(Command::Free(engine, section))?;
            }
        }
        Ok(())
    }

    /// What is still to come: a ring, something to give back, or a home that knows less than the keepers.
    fn unsettled(&self) -> Option<String> {
        if let Some(ring) = self.waits.rings().first() {
            return Some(format!("the ring {ring:?} stands"));
        }
        self.yard.size().engines().find_map(|engine| {
            let state = self.engine(engine);
            let wait = state.wait().map(|wait| (wait.section, wait.for_whom));
            let edge = self.waits.edge(engine).map(|edge| (edge.section, edge.holder));
            if state.is_giving_back() {
                Some(format!("engine {engine} is still giving back"))
            } else if state.open_call().is_some() {
                Some(format!("a call of engine {engine} is still open"))
            } else if wait != edge {
                Some(format!("engine {engine} and its keeper differ about its wait"))
            } else if state.held() != self.kept_for(engine) {
                Some(format!("engine {engine} and the keepers differ about what it holds"))
            } else {
                None
            }
        })
    }

    /// The sections that keepers know as the engine's.
    fn kept_for(&self, engine: Engine) -> SectionSet {
        let mut set = SectionSet::default();
        let size = self.yard.size();
        for signal_box in self.yard.boxes() {
            for (place, state) in (0u8..).zip(signal_box.keeper().sections()) {
                if state.holder == Some(engine) {
                    set.insert(size.section(signal_box.number().0, place).expect("it is there"));
                }
            }
        }
        set
    }
}

/// A script, checked: its output lines, each with the number of the line that gave it.
#[derive(Default)]
pub struct Checked {
    pub output: Vec<(usize, String)>,
    pub statistics: Statistics,
}

/// Plays and checks a script; says at which line what is wrong.
pub fn check_script<'a>(lines: impl Iterator<Item = &'a str>) -> Result<Checked, String> {
    let mut reader = LineReader::default();
    let mut yard: Option<CheckedYard> = None;
    let mut output = Vec::new();
    let mut count = 0;
    let mut unreadable = 0;
    for (index, line) in lines.enumerate() {
        count = index + 1;
        let events = match (reader.read(line), &mut yard) {
            (Line::PassedOver, _) => Vec::new(),
            (Line::Yard(size), _) => {
                yard = Some(CheckedYard::new(size));
                Vec::new()
            }
            (Line::Command(command), Some(yard)) => {
                yard.play(command).map_err(|wrong| format!("line {count}: {line}: {wrong}"))?
            }
            (Line::Command(_), None) | (Line::Unreadable, _) => {
                unreadable += 1;
                vec![Event::Refused(Refusal::Invalid)]
            }
        };
        output.extend(events.iter().map(|event| (count, event.to_string())));
    }
    let mut statistics = Statistics::default();
    if let Some(mut yard) = yard {
        statistics = yard.statistics().clone();
        yard.finish().map_err(|wrong| format!("after line {count}, at the end: {wrong}"))?;
    }
    statistics.lines = count;
    statistics.refused_lines[usize::from(Refusal::Invalid.number())] += unreadable;
    Ok(Checked { output, statistics })
}
