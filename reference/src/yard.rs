//! Boxes that run together: their files in memory, and all messages ever sent.

use crate::codec::to_hex;
use crate::effects::{Effects, Said};
use crate::numbers::{BoxNumber, Engine, Refusal, Section, YardSize};
use crate::signal_box::{Input, SignalBox};
use std::fmt;

/// A message on its way.
#[derive(Clone, PartialEq, Eq, Debug)]
pub struct Envelope {
    pub from: BoxNumber,
    pub to: BoxNumber,
    pub bytes: Vec<u8>,
}

/// One step of the yard.
#[derive(Clone, Copy, PartialEq, Eq, Debug)]
pub enum Command {
    Take(Engine, Section),
    Free(Engine, Section),
    Second(BoxNumber),
    /// A message by its number, which begins at 1.
    Deliver(usize),
    /// Only that many first bytes of a message arrive.
    Cut(usize, usize),
    Stop(BoxNumber),
    Show,
}

/// What comes of a step, in order; each is one line.
#[derive(Clone, PartialEq, Eq, Debug)]
pub enum Event {
    Sent(usize, Envelope),
    Had(Engine, Section),
    GiveBack(Engine),
    GivingBack(Engine),
    Refused(Refusal),
    Shown(String),
}

impl fmt::Display for Event {
    fn fmt(&self, f: &mut fmt::Formatter) -> fmt::Result {
        match self {
            Event::Sent(number, Envelope { from, to, bytes }) => {
                write!(f, "{number} {from} {to} {}", to_hex(bytes))
            }
            Event::Had(engine, section) => write!(f, "had {engine} {section}"),
            Event::GiveBack(engine) => write!(f, "give back {engine}"),
            Event::GivingBack(engine) => write!(f, "giving back {engine}"),
            Event::Refused(refusal) => write!(f, "refused {refusal}"),
            Event::Shown(line) => f.write_str(line),
        }
    }
}

/// A yard that runs.
#[derive(Clone, Debug)]
pub struct Yard {
    size: YardSize,
    boxes: Vec<SignalBox>,
    files: Vec<Vec<u8>>,
    sent: Vec<Envelope>,
}

impl Yard {
    pub fn new(size: YardSize) -> Yard {
        Yard {
            size,
            boxes: size.boxes().map(|number| SignalBox::new(number, size)).collect(),
            files: vec![Vec::new(); size.box_count()],
            sent: Vec::new(),
        }
    }

    pub fn size(&self) -> YardSize {
        self.size
    }

    pub fn boxes(&self) -> &[SignalBox] {
        &self.boxes
    }

    /// All messages ever sent; number 1 stands first.
    pub fn sent(&self) -> &[Envelope] {
        &self.sent
    }

    /// A message by its number.
    pub fn message(&self, number: usize) -> Option<&Envelope> {
        self.sent.get(number.checked_sub(1)?)
    }

    /// The box at which an engine is at home.
    pub fn home_of(&self, engine: Engine) -> &SignalBox {
        &self.boxes[self.size.home(engine).index()]
    }

    /// Does one step.
    pub fn play(&mut self, command: Command) -> Vec<Event> {
        match command {
            Command::Take(engine, section) => {
                self.handle(self.size.home(engine), Input::Take(engine, section))
            }
            Command::Free(engine, section) => {
                self.handle(self.size.home(engine), Input::Free(engine, section))
            }
            Command::Second(number) => self.handle(number, Input::Second),
            Command::Deliver(number) => self.deliver(number, None),
            Command::Cut(number, length) => self.deliver(number, Some(length)),
            Command::Stop(number) => self.stop(number),
            Command::Show => self.show().into_iter().map(Event::Shown).collect(),
        }
    }

    /// Delivers a message, or only its first bytes, which must be less than all.
    fn deliver(&mut self, number: usize, cut_to: Option<usize>) -> Vec<Event> {
        let Some(Envelope { from, to, mut bytes }) = self.message(number).cloned() else {
            return vec![Event::Refused(Refusal::Invalid)];
        };
        if let Some(length) = cut_to {
            if length >= bytes.len() {
                return vec![Event::Refused(Refusal::Invalid)];
            }
            bytes.truncate(length);
        }
        self.handle(to, Input::Message { from, bytes: &bytes })
    }

    fn handle(&mut self, at: BoxNumber, input: Input) -> Vec<Event> {
        let Effects { records, said } = self.boxes[at.index()].handle(input);
        for record in records {
            record.write(&mut self.files[at.index()]);
        }
        said.into_iter().map(|said| self.say(at, said)).collect()
    }

    fn say(&mut self, from: BoxNumber, said: Said) -> Event {
        match said {
            Said::Refused(refusal) => Event::Refused(refusal),
            Said::Had(engine, section) => Event::Had(engine, section),
            Said::GiveBack(engine) => Event::GiveBack(engine),
            Said::Send(to, message) => {
                let envelope = Envelope { from, to, bytes: message.encode() };
                self.sent.push(envelope.clone());
                Event::Sent(self.sent.len(), envelope)
            }
        }
    }

    /// Stops a box and opens it again from its file.
    fn stop(&mut self, number: BoxNumber) -> Vec<Event> {
        let file = &self.files[number.index()];
        let opened = SignalBox::open(number, self.size, file);
        let opened = opened.expect("a box can read the file that it wrote");
        assert_eq!(opened.whole, file.len(), "a box writes whole records");
        self.boxes[number.index()] = opened.signal_box;
        self.boxes[number.index()].giving_back().map(Event::GivingBack).collect()
    }

    /// The lines of `show`: sections by box and place, then engines.
    fn show(&self) -> Vec<String> {
        let sections = self.boxes.iter().flat_map(section_lines);
        let engines =
            self.size.engines().filter_map(|engine| engine_line(self.home_of(engine), engine));
        sections.chain(engines).collect()
    }
}

/// A line for each section of a box that somebody has.
pub fn section_lines(signal_box: &SignalBox) -> Vec<String> {
    let owner = signal_box.number();
    let lines = (0u8..).zip(signal_box.keeper().sections()).filter_map(|(place, state)| {
        let section = Section { owner, place };
        let queue: String = state.queue.iter().map(|engine| format!(" {engine}")).collect();
        let holder = state.holder?;
        Some(format!("section {section} {holder} {}:{queue}", state.change))
    });
    lines.collect()
}

/// The line of an engine, if it is at home at the box.
pub fn engine_line(home: &SignalBox, engine: Engine) -> Option<String> {
    let state = home.home().engine(engine)?;
    let stored = &state.stored;
    let (shown, own, count) = (stored.shown, stored.own, stored.count);
    let mut line = format!("engine {engine} shown {shown} own {own} count {count}");
    if let Some(wait) = state.wait() {
        line += &format!(" waits {} {} {}", wait.for_whom, wait.section, wait.change);
    }
    if let Some(call) = state.open_call() {
        line += &format!(" open {} {} {}", call.kind.word(), call.section, call.number);
    }
    let held = state.held();
    if !held.is_empty() {
        line += " has";
        line.extend(held.iter().map(|section| format!(" {section}")));
    }
    Some(line)
}

#[cfg(test)]
mod tests {
    use super::*;

    /// Three engines over three boxes: each takes a section of its own box, then the next one's.
    fn ring_of_three() -> (Yard, Vec<String>) {
        let size = YardSize::new(3, 3).unwrap();
        let mut yard = Yard::new(size);
        let mut lines = Vec::new();
        let section = |owner| Section { owner: BoxNumber(owner), place: 0 };
        for engine in size.engines() {
            lines.extend(play_out(&mut yard, Command::Take(engine, section(engine.0))));
        }
        for engine in size.engines() {
            lines.extend(play_out(&mut yard, Command::Take(engine, section((engine.0 + 1) % 3))));
        }
        (yard, lines)
    }

    /// Plays a command and delivers all that comes of it; the lines that aren't messages.
    fn play_out(yard: &mut Yard, command: Command) -> Vec<String> {
        let mut next = yard.sent().len() + 1;
        let mut events = yard.play(command);
        while next <= yard.sent().len() {
            events.extend(yard.play(Command::Deliver(next)));
            next += 1;
        }
        events.retain(|event| !matches!(event, Event::Sent(..)));
        events.iter().map(Event::to_string).collect()
    }

    #[test]
    fn the_highest_of_three_is_told_alone() {
        let (_, lines) = ring_of_three();
        assert_eq!(lines, ["had 0 0:0", "had 1 1:0", "had 2 2:0", "give back 2"]);
    }

    #[test]
    fn freeing_lets_the_ring_go_on() {
        let (mut yard, _) = ring_of_three();
        let section = |owner| Section { owner: BoxNumber(owner), place: 0 };
        let lines = play_out(&mut yard, Command::Free(Engine(2), section(2)));
        assert_eq!(lines, ["had 1 2:0"]);
        let expected = [
            "section 0:0 0 1:",
            "section 1:0 1 1: 0",
            "section 2:0 1 2:",
            "engine 0 shown 5 own 3 count 1 waits 1 1:0 1 has 0:0",
            "engine 1 shown 5 own 4 count 1 has 1:0 2:0",
            "engine 2 shown 5 own 5 count 1",
        ];
        assert_eq!(yard.show(), expected);
    }

    #[test]
    fn an_engine_told_may_not_take_until_all_is_freed() {
        let (mut yard, _) = ring_of_three();
        let section = |owner, place| Section { owner: BoxNumber(owner), place };
        let take = Command::Take(Engine(2), section(1, 7));
        assert_eq!(play_out(&mut yard, take), ["refused 2"]);
        assert_eq!(play_out(&mut yard, Command::Stop(BoxNumber(2))), ["giving back 2"]);
        play_out(&mut yard, Command::Second(BoxNumber(2)));
        play_out(&mut yard, Command::Free(Engine(2), section(2, 0)));
        assert_eq!(play_out(&mut yard, take), ["had 2 1:7"]);
    }
}
