//! Seeded scripts. A yard runs inside, so that the lines have something to do with what is going on.

use crate::home::EngineState;
use crate::numbers::{BoxNumber, Engine, Section, YardSize, PLACES};
use crate::random::Random;
use crate::script::command_line;
use crate::yard::{Command, Event, Yard};

/// How much a script leans to each kind of line; weights are relative to their sum.
#[derive(Clone, Copy, Debug)]
struct Weights {
    take: usize,
    free: usize,
    deliver_due: usize,
    deliver_again: usize,
    cut: usize,
    second: usize,
    stop: usize,
    show: usize,
    bad: usize,
}

/// In what order messages that are due arrive.
#[derive(Clone, Copy, PartialEq, Eq, Debug)]
enum Arrival {
    Oldest,
    Newest,
    Any,
}

/// What kind of script it is.
#[derive(Clone, Copy, Debug)]
struct Style {
    weights: Weights,
    arrival: Arrival,
    /// Of a hundred messages, how many are lost (they may still come late).
    lost: usize,
    /// Of a hundred takes and frees, how many pay no heed to what the engine may do now.
    heedless: usize,
    /// Of a hundred frees, how many are of engines that weren't told to.
    impatient: usize,
    /// Of a thousand lines without a plan, before how many a ring of several engines is planned.
    planning: usize,
    /// Of a hundred takes, how many are of the engine's own section first and the next one's then.
    circular: usize,
}

/// With more messages on their way than this, a second waits.
const CROWDED: usize = 24;

/// Messages arrive, mostly in order, and engines hold and want: rings come often.
const RINGS: Style = Style {
    weights: Weights {
        take: 22,
        free: 8,
        deliver_due: 100,
        deliver_again: 3,
        cut: 1,
        second: 4,
        stop: 1,
        show: 1,
        bad: 1,
    },
    arrival: Arrival::Oldest,
    lost: 2,
    heedless: 3,
    impatient: 6,
    planning: 25,
    circular: 70,
};

/// Messages overtake each other.
const LATE: Style = Style {
    weights: Weights {
        take: 14,
        free: 8,
        deliver_due: 80,
        deliver_again: 12,
        cut: 3,
        second: 8,
        stop: 3,
        show: 1,
        bad: 1,
    },
    arrival: Arrival::Any,
    lost: 10,
    heedless: 5,
    impatient: 15,
    planning: 15,
    circular: 60,
};

/// The newest first, and boxes stop often.
const STOPS: Style = Style {
    weights: Weights {
        take: 16,
        free: 8,
        deliver_due: 90,
        deliver_again: 6,
        cut: 2,
        second: 12,
        stop: 12,
        show: 1,
        bad: 1,
    },
    arrival: Arrival::Newest,
    lost: 5,
    heedless: 4,
    impatient: 15,
    planning: 15,
    circular: 60,
};

/// Anything at any time.
const CHAOS: Style = Style {
    weights: Weights {
        take: 20,
        free: 16,
        deliver_due: 40,
        deliver_again: 25,
        cut: 8,
        second: 8,
        stop: 8,
        show: 3,
        bad: 6,
    },
    arrival: Arrival::Any,
    lost: 30,
    heedless: 40,
    impatient: 40,
    planning: 5,
    circular: 30,
};

/// The kinds of line that a script has.
#[derive(Clone, Copy, Debug)]
enum Kind {
    Take,
    Free,
    DeliverDue,
    DeliverAgain,
    Cut,
    Second,
    Stop,
    Show,
    Bad,
}

impl Weights {
    fn pick(&self, random: &mut Random) -> Kind {
        let kinds = [
            (Kind::Take, self.take),
            (Kind::Free, self.free),
            (Kind::DeliverDue, self.deliver_due),
            (Kind::DeliverAgain, self.deliver_again),
            (Kind::Cut, self.cut),
            (Kind::Second, self.second),
            (Kind::Stop, self.stop),
            (Kind::Show, self.show),
            (Kind::Bad, self.bad),
        ];
        let mut left = random.below(kinds.iter().map(|(_, weight)| weight).sum());
        for (kind, weight) in kinds {
            if left < weight {
                return kind;
            }
            left -= weight;
        }
        Kind::Show
    }
}

/// Lines that are passed over, or that are bad in every yard.
const BAD_LINES: [&str; 21] = [
    "",
    "# nothing here",
    "take",
    "take 0",
    "take 0 0",
    "take 0 0:64",
    "take 0 0:0 0",
    "take x 0:0",
    "take -1 0:0",
    "free 0 0:",
    "free 0 0:99999999999999999999",
    "second",
    "stop all",
    "deliver 0",
    "deliver 4294967296",
    "deliver 18446744073709551617",
    "cut 0 0",
    "cut 1",
    "shows",
    "show 1",
    "give up 0",
];

/// A step towards a ring that the generator has in mind.
#[derive(Clone, Copy, Debug)]
enum Planned {
    Take(Engine, Section),
    /// Deliver until nothing is on its way.
    Settle,
}

/// Makes one script.
struct Generator {
    random: Random,
    style: Style,
    yard: Yard,
    /// The few sections that the engines of this script contend for, one for each engine.
    contended: Vec<Section>,
    /// Numbers of the messages that are on their way.
    due: Vec<usize>,
    /// What comes next, the last first.
    planned: Vec<Planned>,
}

/// A script of that many lines, the last of which is `show`.
pub fn generate(seed: u64, lines: usize, size: Option<YardSize>) -> Vec<String> {
    let mut random = Random::new(seed);
    let size = size.unwrap_or_else(|| random_size(&mut random));
    let mut script = vec![format!("yard {} {}", size.box_count(), size.engine_count())];
    let mut generator = Generator::new(random, size);
    while script.len() + 1 < lines {
        script.push(generator.line());
    }
    script.push("show".to_string());
    script
}

/// Mostly three engines and more, since rings need them.
fn random_size(random: &mut Random) -> YardSize {
    let boxes = random.between(1, 8) as u8;
    let lowest = if random.chance(90) { 3 } else { 1 };
    let engines = random.between(lowest, 8) as u8;
    YardSize::new(boxes, engines).expect("within the limits")
}

impl Generator {
    fn new(mut random: Random, size: YardSize) -> Generator {
        let styles = [RINGS, RINGS, LATE, STOPS, CHAOS];
        let style = styles[random.below(styles.len())];
        let places = random.between(2, 12);
        let contended = size.engines().map(|_| random_section(&mut random, size, places)).collect();
        Generator {
            random,
            style,
            yard: Yard::new(size),
            contended,
            due: Vec::new(),
            planned: Vec::new(),
        }
    }

    fn line(&mut self) -> String {
        let command = match self.planned_command() {
            Some(command) => command,
            None => match self.random_command() {
                Some(command) => command,
                None => return self.bad_line(),
            },
        };
        self.play(command);
        command_line(command)
    }

    /// The next step of the plan, if there is one and nothing comes between.
    fn planned_command(&mut self) -> Option<Command> {
        if self.planned.is_empty() && self.random.below(1000) < self.style.planning {
            self.plan_ring();
        }
        if self.random.chance(10) {
            return None;
        }
        match *self.planned.last()? {
            Planned::Take(engine, section) => {
                self.planned.pop();
                Some(Command::Take(engine, section))
            }
            Planned::Settle => {
                let delivery = self.deliver_due();
                if self.due.is_empty() {
                    self.planned.pop();
                }
                delivery
            }
        }
    }

    /// Some engines are to take a section each, and then each the next one's.
    fn plan_ring(&mut self) {
        let mut engines = self.engines_that(may_take);
        let places = usize::from(PLACES);
        while engines.len() > 2 && self.random.chance(30) {
            engines.remove(self.random.below(engines.len()));
        }
        for index in (1..engines.len()).rev() {
            engines.swap(index, self.random.below(index + 1));
        }
        let size = self.yard.size();
        let sections: Vec<Section> =
            engines.iter().map(|_| random_section(&mut self.random, size, places)).collect();
        let take = |(engine, section): (&Engine, &Section)| Planned::Take(*engine, *section);
        let nexts = sections.iter().cycle().skip(1);
        self.planned.push(Planned::Settle);
        self.planned.extend(engines.iter().zip(nexts).map(take));
        self.planned.push(Planned::Settle);
        self.planned.extend(engines.iter().zip(&sections).map(take));
    }

    /// A command by the style's weights; `None` for a bad line.
    fn random_command(&mut self) -> Option<Command> {
        let command = match self.style.weights.pick(&mut self.random) {
            Kind::Take => self.take(),
            Kind::Free => self.free(),
            Kind::DeliverDue => self.deliver_due(),
            Kind::DeliverAgain => self.any_message().map(Command::Deliver),
            Kind::Cut => self.cut(),
            Kind::Second => self.second(),
            Kind::Stop => Some(Command::Stop(self.any_box())),
            Kind::Show => Some(Command::Show),
            Kind::Bad => return None,
        };
        let command = command.or_else(|| self.deliver_due());
        Some(command.unwrap_or_else(|| Command::Second(self.any_box())))
    }

    fn play(&mut self, command: Command) {
        for event in self.yard.play(command) {
            if let Event::Sent(number, _) = event {
                if !self.random.chance(self.style.lost) {
                    self.due.push(number);
                }
            }
        }
    }

    fn any_box(&mut self) -> BoxNumber {
        BoxNumber(self.random.below(self.yard.size().box_count()) as u8)
    }

    fn any_engine(&mut self) -> Engine {
        Engine(self.random.below(self.yard.size().engine_count()) as u8)
    }

    fn any_message(&mut self) -> Option<usize> {
        let sent = self.yard.sent().len();
        (sent > 0).then(|| self.random.between(1, sent))
    }

    fn contended_section(&mut self) -> Section {
        if self.random.chance(5) {
            return random_section(&mut self.random, self.yard.size(), usize::from(PLACES));
        }
        self.contended[self.random.below(self.contended.len())]
    }

    /// A second, unless much is still on its way.
    fn second(&mut self) -> Option<Command> {
        let wanted = self.due.len() < CROWDED || self.random.chance(10);
        wanted.then(|| Command::Second(self.any_box()))
    }

    /// The engines of which that is so.
    fn engines_that(&self, is_so: impl Fn(&EngineState) -> bool) -> Vec<Engine> {
        let fits = |engine: &Engine| {
            let state = self.yard.home_of(*engine).home().engine(*engine);
            state.is_some_and(&is_so)
        };
        self.yard.size().engines().filter(fits).collect()
    }

    fn take(&mut self) -> Option<Command> {
        if self.random.chance(self.style.heedless) {
            return Some(Command::Take(self.any_engine(), self.contended_section()));
        }
        let engines = self.engines_that(may_take);
        let engine = *self.random.pick(&engines)?;
        if self.random.chance(self.style.circular) {
            return self.take_in_circle(engine);
        }
        Some(Command::Take(engine, self.contended_section()))
    }

    /// Takes the engine's own contended section, then the next one's; with both it is done and frees one.
    fn take_in_circle(&mut self, engine: Engine) -> Option<Command> {
        let held = self.held(engine);
        let next = [engine.index(), engine.index() + 1].map(|index| index % self.contended.len());
        let wanted = next.map(|index| self.contended[index]);
        match wanted.into_iter().find(|section| !held.contains(section)) {
            Some(section) => Some(Command::Take(engine, section)),
            None => self.random.pick(&held).map(|&section| Command::Free(engine, section)),
        }
    }

    /// The sections that an engine holds, as its home knows.
    fn held(&self, engine: Engine) -> Vec<Section> {
        let state = self.yard.home_of(engine).home().engine(engine);
        state.map_or(Vec::new(), |state| state.held().iter().collect())
    }

    fn free(&mut self) -> Option<Command> {
        if self.random.chance(self.style.heedless) {
            return Some(Command::Free(self.any_engine(), self.contended_section()));
        }
        let impatient = self.random.chance(self.style.impatient);
        let engines = self.engines_that(|state| {
            let wanted = impatient || state.is_giving_back();
            wanted && is_ready(state) && !state.held().is_empty()
        });
        let engine = *self.random.pick(&engines)?;
        let held = self.held(engine);
        let section = *self.random.pick(&held)?;
        Some(Command::Free(engine, section))
    }

    fn deliver_due(&mut self) -> Option<Command> {
        if self.due.is_empty() {
            return None;
        }
        let index = match self.style.arrival {
            Arrival::Oldest if self.random.chance(90) => 0,
            Arrival::Newest if self.random.chance(90) => self.due.len() - 1,
            _ => self.random.below(self.due.len()),
        };
        Some(Command::Deliver(self.due.remove(index)))
    }

    fn cut(&mut self) -> Option<Command> {
        let number = self.any_message()?;
        let length = self.yard.message(number)?.bytes.len();
        Some(Command::Cut(number, self.random.below(length)))
    }

    /// A line that is passed over, or that can't be read or names what isn't there.
    fn bad_line(&mut self) -> String {
        if self.random.chance(50) {
            return BAD_LINES[self.random.below(BAD_LINES.len())].to_string();
        }
        let size = self.yard.size();
        let (boxes, engines) = (size.box_count(), size.engine_count());
        let unsent = self.yard.sent().len() + 1;
        let length = self.yard.message(1).map_or(0, |envelope| envelope.bytes.len());
        let lines = [
            format!("take {engines} 0:0"),
            format!("take 0 {boxes}:0"),
            format!("free {engines} 0:0"),
            format!("free 0 {boxes}:0"),
            format!("second {boxes}"),
            format!("stop {boxes}"),
            format!("deliver {unsent}"),
            format!("cut {unsent} 1"),
            format!("cut 1 {length}"),
            format!("yard {boxes} {engines}"),
        ];
        lines[self.random.below(lines.len())].clone()
    }
}

/// No call of the engine is open, and it doesn't wait.
fn is_ready(state: &EngineState) -> bool {
    state.open_call().is_none() && state.wait().is_none()
}

fn may_take(state: &EngineState) -> bool {
    is_ready(state) && !state.is_giving_back()
}

/// A section of any box, at one of the first places.
fn random_section(random: &mut Random, size: YardSize, places: usize) -> Section {
    let owner = random.below(size.box_count()) as u8;
    let place = random.below(places) as u8;
    Section { owner: BoxNumber(owner), place }
}

#[cfg(test)]
mod tests {
    use super::*;
    use crate::check::check_script;

    #[test]
    fn the_same_seed_gives_the_same_script() {
        assert_eq!(generate(7, 300, None), generate(7, 300, None));
        assert_ne!(generate(7, 300, None), generate(8, 300, None));
        assert_eq!(generate(7, 300, None).len(), 300);
    }

    #[test]
    fn scripts_have_rings_and_hold_what_is_promised() {
        let mut tellings = 0;
        for seed in 0..200 {
            let script = generate(seed, 300, None);
            let checked = check_script(script.iter().map(String::as_str));
            tellings +=
                checked.unwrap_or_else(|wrong| panic!("seed {seed}: {wrong}")).statistics.tellings;
        }
        assert!(tellings > 200, "{tellings}");
    }
}
