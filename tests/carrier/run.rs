//! One run: boxes, a carrier that loses, doubles and delays what they send, drivers, and kills.

use crate::files::{Files, TellingSeen};
use crate::processes::{Process, SaidLine, Starter};
use reference::home::LastClaim;
use reference::numbers::{BoxNumber, Engine, Section, YardSize};
use reference::random::Random;
use reference::script::{parse_engine, parse_number, parse_section};
use std::collections::BTreeMap;
use std::fmt;
use std::path::Path;
use std::sync::mpsc::{channel, Receiver, Sender};
use std::time::Duration;

/// How long a tick waits for something to be said.
const TICK: Duration = Duration::from_micros(300);
/// In the end, how long nothing may be said before all is thought to be said.
const QUIET: Duration = Duration::from_millis(15);
/// Rounds at the end within which everything must settle.
const ROUNDS: usize = 200;

/// What the carrier does to a message, of a hundred.
const LOST: usize = 10;
const DOUBLED: usize = 10;
const DELAYED: usize = 40;
/// The longest delay, in ticks.
const LONGEST_DELAY: usize = 25;
/// Of a hundred ticks, how many have a second, a kill, and a driver's line.
const SECONDS: usize = 15;
const KILLS: usize = 1;
const DRIVEN: usize = 50;

/// What happened in a run.
#[derive(Clone, Copy, Default, Debug)]
pub struct Counts {
    pub messages: usize,
    pub hads: usize,
    pub tellings: usize,
    pub reminders: usize,
    pub late_tellings: usize,
    pub kills: usize,
    pub refused: usize,
}

impl fmt::Display for Counts {
    fn fmt(&self, f: &mut fmt::Formatter) -> fmt::Result {
        let Counts { messages, hads, tellings, reminders, late_tellings, kills, refused } = self;
        write!(f, "{messages} messages, {refused} refused, {hads} had, {tellings} told, ")?;
        write!(f, "{reminders} reminded ({late_tellings} of both late), {kills} killed")
    }
}

/// A message on its way.
struct OnTheWay {
    due: usize,
    to: BoxNumber,
    line: String,
}

/// Whether the carrier still spoils things.
#[derive(Clone, Copy, PartialEq, Eq)]
enum Weather {
    Rough,
    Calm,
}

/// A run that is under way.
pub struct Run {
    size: YardSize,
    random: Random,
    files: Files,
    starter: Starter,
    said: (Sender<SaidLine>, Receiver<SaidLine>),
    processes: Vec<Process>,
    on_the_way: Vec<OnTheWay>,
    /// For each section that a driver was told it had: by the take of which number.
    claims: BTreeMap<(Engine, Section), u32>,
    /// One section for each engine: it takes that one and then another engine's.
    contended: Vec<Section>,
    tick: usize,
    weather: Weather,
    counts: Counts,
}

impl Run {
    pub fn start(starter: &Starter, seed: u64, size: YardSize, root: &Path) -> Result<Run, String> {
        let mut random = Random::new(seed);
        let contended = size.engines().map(|_| Section {
            owner: BoxNumber(random.below(size.box_count()) as u8),
            place: random.below(8) as u8,
        });
        let contended = contended.collect();
        let mut run = Run {
            size,
            random,
            files: Files::create(root, size).map_err(|error| error.to_string())?,
            starter: starter.clone(),
            said: channel(),
            processes: Vec::new(),
            on_the_way: Vec::new(),
            claims: BTreeMap::new(),
            contended,
            tick: 0,
            weather: Weather::Rough,
            counts: Counts::default(),
        };
        for number in size.boxes() {
            let process = run.start_box(number)?;
            run.processes.push(process);
        }
        Ok(run)
    }

    fn start_box(&self, number: BoxNumber) -> Result<Process, String> {
        let folder = self.files.folder(number);
        let process =
            Process::start(&self.starter, number, self.size, &folder, self.said.0.clone());
        process.map_err(|error| error.to_string())
    }

    /// Runs that many ticks, then lets everything settle; what happened, or what is wrong.
    pub fn play(mut self, ticks: usize) -> Result<Counts, String> {
        for _ in 0..ticks {
            self.step().map_err(|wrong| format!("tick {}: {wrong}", self.tick))?;
        }
        self.settle().map_err(|wrong| format!("after {ticks} ticks, at the end: {wrong}"))?;
        for process in std::mem::take(&mut self.processes) {
            if !process.end().map_err(|error| error.to_string())? {
                return Err("a box ended with a fault".to_string());
            }
        }
        Ok(self.counts)
    }

    fn step(&mut self) -> Result<(), String> {
        self.tick += 1;
        self.hear(TICK)?;
        self.deliver_due();
        if self.random.chance(DRIVEN) {
            self.drive()?;
        }
        let number = BoxNumber(self.random.below(self.size.box_count()) as u8);
        if self.random.chance(SECONDS) {
            self.tell(number, "second");
        }
        if self.random.chance(KILLS) {
            self.kill(number)?;
        }
        if self.tick.is_multiple_of(100) {
            self.check_claims()?;
        }
        self.check_running()
    }

    fn tell(&mut self, number: BoxNumber, line: &str) {
        self.processes[number.index()].tell(line);
    }

    fn kill(&mut self, number: BoxNumber) -> Result<(), String> {
        let process = self.processes.remove(number.index());
        process.kill().map_err(|error| error.to_string())?;
        let process = self.start_box(number)?;
        self.processes.insert(number.index(), process);
        self.counts.kills += 1;
        Ok(())
    }

    fn check_running(&mut self) -> Result<(), String> {
        for (number, process) in self.processes.iter_mut().enumerate() {
            if process.has_ended() {
                return Err(format!("box {number} ended by itself"));
            }
        }
        Ok(())
    }

    /// Deals with all that was said, having waited for the first of it; whether there was anything.
    fn hear(&mut self, wait: Duration) -> Result<bool, String> {
        let Ok(first) = self.said.1.recv_timeout(wait) else {
            return Ok(false);
        };
        let mut next = Some(first);
        while let Some(SaidLine { from, text }) = next {
            self.hear_line(from, &text).map_err(|wrong| format!("box {from}: {text}: {wrong}"))?;
            next = self.said.1.try_recv().ok();
        }
        Ok(true)
    }

    fn hear_line(&mut self, from: BoxNumber, text: &str) -> Result<(), String> {
        let engine = |word| parse_engine(word, self.size).ok_or("no such engine");
        let words: Vec<&str> = text.split(' ').collect();
        match words[..] {
            ["had", it, section] => {
                let section = parse_section(section, self.size).ok_or("no such section")?;
                self.hear_had(engine(it)?, section)
            }
            ["give", "back", it] => {
                self.counts.tellings += 1;
                self.check_telling(engine(it)?)
            }
            ["giving", "back", it] => {
                self.counts.reminders += 1;
                self.check_telling(engine(it)?)
            }
            ["refused", _] => {
                self.counts.refused += 1;
                Ok(())
            }
            [to, hex] => {
                let to = parse_number(to).and_then(|to| self.size.box_number(to));
                self.carry(to.ok_or("no such box")?, format!("{from} {hex}"));
                Ok(())
            }
            _ => Err("no such line".to_string()),
        }
    }

    /// Loses, doubles and delays, as long as the weather is rough.
    fn carry(&mut self, to: BoxNumber, line: String) {
        self.counts.messages += 1;
        let copies = match self.weather {
            Weather::Calm => 1,
            Weather::Rough if self.random.chance(LOST) => 0,
            Weather::Rough if self.random.chance(DOUBLED) => 2,
            Weather::Rough => 1,
        };
        for _ in 0..copies {
            let delay = match self.weather {
                Weather::Rough if self.random.chance(DELAYED) => self.random.below(LONGEST_DELAY),
                _ => 0,
            };
            self.on_the_way.push(OnTheWay { due: self.tick + delay, to, line: line.clone() });
        }
    }

    fn deliver_due(&mut self) {
        let tick = self.tick;
        let (due, later) =
            std::mem::take(&mut self.on_the_way).into_iter().partition(|it| it.due <= tick);
        self.on_the_way = later;
        let due: Vec<OnTheWay> = due;
        for message in due {
            self.tell(message.to, &message.line);
        }
    }

    /// Nobody else has the section, and its keeper knows the engine as its holder.
    fn hear_had(&mut self, engine: Engine, section: Section) -> Result<(), String> {
        self.counts.hads += 1;
        let others =
            self.claims.iter().filter(|((other, it), _)| *it == section && *other != engine);
        for (&(other, _), &number) in others {
            if self.files.take_number(other, section) == Some(number) {
                return Err(format!("engine {other} has it too"));
            }
        }
        self.claims.retain(|&(_, it), _| it != section);
        if let Some(number) = self.files.take_number(engine, section) {
            self.claims.insert((engine, section), number);
            self.check_claim(engine, section, number)?;
        }
        Ok(())
    }

    /// As long as the home recorded no other call for the section, the keeper's file names the engine.
    fn check_claim(&self, engine: Engine, section: Section, number: u32) -> Result<(), String> {
        let holder = self.files.holder(section)?;
        let still = self.files.take_number(engine, section) == Some(number);
        if still && holder != Some(engine) {
            return Err(format!("engine {engine} has {section}, whose holder is {holder:?}"));
        }
        Ok(())
    }

    fn check_claims(&self) -> Result<(), String> {
        self.claims
            .iter()
            .try_for_each(|(&(engine, section), &number)| self.check_claim(engine, section, number))
    }

    fn check_telling(&mut self, engine: Engine) -> Result<(), String> {
        if self.files.check_telling(engine)? == TellingSeen::Late {
            self.counts.late_tellings += 1;
        }
        self.check_claims()
    }

    /// One engine's driver says something: it frees what it was told to, or takes its own section and then another's.
    fn drive(&mut self) -> Result<(), String> {
        let engine = Engine(self.random.below(self.size.engine_count()) as u8);
        let stored = self.files.stored(engine)?;
        let claimed =
            self.claims.keys().filter(|(it, _)| *it == engine).map(|(_, section)| *section);
        let mut held: Vec<Section> = claimed.chain(stored.kept.iter()).collect();
        held.dedup();
        let other = self.random.below(self.contended.len());
        let wanted = [engine.index(), other].map(|index| self.contended[index]);
        let next = wanted.into_iter().find(|section| !held.contains(section));
        let giving_back = stored.last_claim == LastClaim::GiveUp && !held.is_empty();
        let home = self.size.home(engine);
        match next.filter(|_| !giving_back && !self.random.chance(10)) {
            Some(section) => self.tell(home, &format!("take {engine} {section}")),
            None => {
                if let Some(section) = self.random.pick(&held) {
                    let line = format!("free {engine} {section}");
                    self.tell(home, &line);
                }
            }
        }
        Ok(())
    }

    /// Nothing is lost any more, and drivers free what they were told to: then no ring stands.
    fn settle(&mut self) -> Result<(), String> {
        self.weather = Weather::Calm;
        self.tick += LONGEST_DELAY;
        let mut unsettled = String::new();
        for _ in 0..ROUNDS {
            self.deliver_due();
            while self.hear(QUIET)? {
                self.deliver_due();
            }
            self.check_running()?;
            match self.files.unsettled()? {
                None => return self.check_claims(),
                Some(reason) => unsettled = reason,
            }
            self.give_back()?;
            for number in self.size.boxes() {
                self.tell(number, "second");
            }
        }
        Err(format!("after {ROUNDS} rounds: {unsettled}"))
    }

    /// Drivers that were told to give back free one section each.
    fn give_back(&mut self) -> Result<(), String> {
        for engine in self.size.engines() {
            let stored = self.files.stored(engine)?;
            let section = stored.kept.iter().next();
            if let Some(section) = section.filter(|_| stored.last_claim == LastClaim::GiveUp) {
                self.tell(self.size.home(engine), &format!("free {engine} {section}"));
            }
        }
        Ok(())
    }
}

impl Drop for Run {
    /// Ends the boxes that still run, as after a failure.
    fn drop(&mut self) {
        for process in std::mem::take(&mut self.processes) {
            let _ = process.kill();
        }
    }
}
