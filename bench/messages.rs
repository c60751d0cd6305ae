// One million messages decoded and encoded: the proved codec beside the same in plain Rust.
// Arguments: which of the two to run, `plain`, `proved` or `none`; without one, both, timed by turns.
use std::hint::black_box;
use std::time::{Duration, Instant};

const MESSAGES: usize = 1_000_000;
const ROUNDS: usize = 11;
const LONGEST: usize = 21;

// Both codecs stand behind the same C signature, and are called through a pointer that the compiler does not see through.
type Codec = unsafe extern "C" fn(boxes: u8, engines: u8, bytes: *const u8, length: usize, out: *mut u8, room: usize) -> usize;

unsafe extern "C" {
    fn recode(boxes: u8, engines: u8, bytes: *const u8, length: usize, out: *mut u8, room: usize) -> usize;
}

mod plain {
    use super::LONGEST;

    #[derive(Clone, Copy)]
    pub struct Yard {
        boxes: u8,
        engines: u8,
    }
    #[derive(Clone, Copy)]
    pub struct Engine(u8);
    #[derive(Clone, Copy)]
    pub struct Section {
        keeper: u8,
        place: u8,
    }
    #[derive(Clone, Copy)]
    pub enum Act {
        Take,
        Free,
        GiveUp,
    }
    #[derive(Clone, Copy)]
    pub enum Holder {
        Nobody,
        Engine(Engine),
    }
    #[derive(Clone, Copy)]
    pub enum Refusal {
        Waiting,
        Mismatch,
        Exhausted,
    }
    #[derive(Clone, Copy)]
    pub enum Reply {
        Done,
        Waits,
        Refused(Refusal),
    }
    #[derive(Clone, Copy)]
    pub enum Message {
        Call { act: Act, engine: Engine, section: Section, number: u32 },
        Answer { engine: Engine, call: u32, reply: Reply, holder: Holder, change: u32 },
        Change { section: Section, holder: Holder, change: u32 },
        WhichChange { engine: Engine, section: Section },
        Sign { to: Engine, count: u32, by: Engine, sign: u64 },
        Waits { engine: Engine, section: Section, count: u32, change: u32 },
    }

    fn four(bytes: &[u8]) -> Option<u32> {
        Some(u32::from_be_bytes(bytes.get(..4)?.try_into().ok()?))
    }

    impl Yard {
        pub fn new(boxes: u8, engines: u8) -> Option<Yard> {
            ((1..=16).contains(&boxes) && (1..=64).contains(&engines)).then_some(Yard { boxes, engines })
        }
        fn engine(self, number: u8) -> Option<Engine> {
            (number < self.engines).then_some(Engine(number))
        }
        fn section(self, keeper: u8, place: u8) -> Option<Section> {
            (keeper < self.boxes && place < 64).then_some(Section { keeper, place })
        }
        fn holder(self, number: u8) -> Option<Holder> {
            if number == 255 { Some(Holder::Nobody) } else { Some(Holder::Engine(self.engine(number)?)) }
        }
        fn call(self, act: Act, rest: &[u8]) -> Option<Message> {
            let &[engine, keeper, place, ref number @ ..] = rest else { return None };
            if number.len() != 4 {
                return None;
            }
            Some(Message::Call { act, engine: self.engine(engine)?, section: self.section(keeper, place)?, number: four(number)? })
        }
        pub fn decode(self, bytes: &[u8]) -> Option<Message> {
            let (&first, rest) = bytes.split_first()?;
            match first {
                1 => self.call(Act::Take, rest),
                2 => self.call(Act::Free, rest),
                3 => self.call(Act::GiveUp, rest),
                4 => self.answer(rest),
                5 => {
                    let &[keeper, place, holder, ref change @ ..] = rest else { return None };
                    if change.len() != 4 {
                        return None;
                    }
                    Some(Message::Change { section: self.section(keeper, place)?, holder: self.holder(holder)?, change: four(change)? })
                }
                6 => {
                    let &[engine, keeper, place] = rest else { return None };
                    Some(Message::WhichChange { engine: self.engine(engine)?, section: self.section(keeper, place)? })
                }
                7 => {
                    let rest: &[u8; 14] = rest.try_into().ok()?;
                    let sign = u64::from_be_bytes(rest[6..].try_into().ok()?);
                    Some(Message::Sign { to: self.engine(rest[0])?, count: four(&rest[1..5])?, by: self.engine(rest[5])?, sign })
                }
                12 => {
                    let rest: &[u8; 11] = rest.try_into().ok()?;
                    let section = self.section(rest[1], rest[2])?;
                    Some(Message::Waits { engine: self.engine(rest[0])?, section, count: four(&rest[3..7])?, change: four(&rest[7..])? })
                }
                0 | 8..=11 | 13..=255 => None,
            }
        }
        fn answer(self, rest: &[u8]) -> Option<Message> {
            let (head, end) = rest.split_at_checked(11)?;
            let reply = match (head[5], end) {
                (1, []) => Reply::Done,
                (2, []) => Reply::Waits,
                (0, [3]) => Reply::Refused(Refusal::Waiting),
                (0, [4]) => Reply::Refused(Refusal::Mismatch),
                (0, [7]) => Reply::Refused(Refusal::Exhausted),
                _ => return None,
            };
            let (engine, holder) = (self.engine(head[0])?, self.holder(head[6])?);
            Some(Message::Answer { engine, call: four(&head[1..5])?, reply, holder, change: four(&head[7..])? })
        }
    }

    pub struct Encoded {
        bytes: [u8; LONGEST],
        used: usize,
    }

    impl Encoded {
        fn put(mut self, more: &[u8]) -> Encoded {
            self.bytes[self.used..self.used + more.len()].copy_from_slice(more);
            self.used += more.len();
            self
        }
        fn section(self, section: Section) -> Encoded {
            self.put(&[section.keeper, section.place])
        }
        pub fn as_slice(&self) -> &[u8] {
            &self.bytes[..self.used]
        }
    }

    impl Holder {
        fn byte(self) -> u8 {
            match self {
                Holder::Nobody => 255,
                Holder::Engine(engine) => engine.0,
            }
        }
    }

    pub fn encode(message: Message) -> Encoded {
        let out = Encoded { bytes: [0; LONGEST], used: 0 };
        match message {
            Message::Call { act, engine, section, number } => {
                let first = match act {
                    Act::Take => 1,
                    Act::Free => 2,
                    Act::GiveUp => 3,
                };
                out.put(&[first, engine.0]).section(section).put(&number.to_be_bytes())
            }
            Message::Answer { engine, call, reply, holder, change } => {
                let byte = match reply {
                    Reply::Done => 1,
                    Reply::Waits => 2,
                    Reply::Refused(_) => 0,
                };
                let out = out.put(&[4, engine.0]).put(&call.to_be_bytes()).put(&[byte, holder.byte()]).put(&change.to_be_bytes());
                match reply {
                    Reply::Done | Reply::Waits => out,
                    Reply::Refused(Refusal::Waiting) => out.put(&[3]),
                    Reply::Refused(Refusal::Mismatch) => out.put(&[4]),
                    Reply::Refused(Refusal::Exhausted) => out.put(&[7]),
                }
            }
            Message::Change { section, holder, change } => out.put(&[5]).section(section).put(&[holder.byte()]).put(&change.to_be_bytes()),
            Message::WhichChange { engine, section } => out.put(&[6, engine.0]).section(section),
            Message::Sign { to, count, by, sign } => {
                out.put(&[7, to.0]).put(&count.to_be_bytes()).put(&[by.0]).put(&sign.to_be_bytes())
            }
            Message::Waits { engine, section, count, change } => {
                out.put(&[12, engine.0]).section(section).put(&count.to_be_bytes()).put(&change.to_be_bytes())
            }
        }
    }
}

unsafe extern "C" fn plain_recode(boxes: u8, engines: u8, bytes: *const u8, length: usize, out: *mut u8, room: usize) -> usize {
    let (bytes, out) = unsafe { (std::slice::from_raw_parts(bytes, length), std::slice::from_raw_parts_mut(out, room)) };
    let Some(yard) = plain::Yard::new(boxes, engines) else { return 0 };
    let Some(message) = yard.decode(bytes) else { return 0 };
    let encoded = plain::encode(message);
    let written = encoded.as_slice();
    if out.len() < written.len() {
        return 0;
    }
    out[..written.len()].copy_from_slice(written);
    written.len()
}

// The same bytes in every run: a linear congruential generator.
struct Dice(u64);

impl Dice {
    fn roll(&mut self, below: u64) -> u8 {
        self.0 = self.0.wrapping_mul(6364136223846793005).wrapping_add(1442695040888963407);
        ((self.0 >> 33) % below) as u8
    }
    fn fill(&mut self, out: &mut Vec<u8>, bytes: usize) {
        for _ in 0..bytes {
            let byte = self.roll(256);
            out.push(byte);
        }
    }
    fn holder(&mut self) -> u8 {
        if self.roll(4) == 0 { 255 } else { self.roll(64) }
    }
    fn message(&mut self) -> Vec<u8> {
        let kind = [1, 2, 3, 4, 5, 6, 7, 12][self.roll(8) as usize];
        let mut out = vec![kind];
        match kind {
            1..=3 | 6 | 12 => {
                out.extend([self.roll(64), self.roll(16), self.roll(64)]);
                self.fill(&mut out, match kind { 6 => 0, 12 => 8, _ => 4 });
            }
            4 => {
                out.push(self.roll(64));
                self.fill(&mut out, 4);
                let reply = self.roll(3);
                out.extend([reply, self.holder()]);
                self.fill(&mut out, 4);
                if reply == 0 {
                    out.push([3, 4, 7][self.roll(3) as usize]);
                }
            }
            5 => {
                out.extend([self.roll(16), self.roll(64), self.holder()]);
                self.fill(&mut out, 4);
            }
            _ => {
                out.push(self.roll(64));
                self.fill(&mut out, 4);
                out.push(self.roll(64));
                self.fill(&mut out, 8);
            }
        }
        out
    }
}

// Every message, one after another, and where each ends.
struct Messages {
    bytes: Vec<u8>,
    ends: Vec<usize>,
}

fn messages() -> Messages {
    let mut dice = Dice(1984);
    let (mut bytes, mut ends) = (Vec::new(), Vec::new());
    for _ in 0..MESSAGES {
        bytes.extend(dice.message());
        ends.push(bytes.len());
    }
    Messages { bytes, ends }
}

fn pass(all: &Messages, codec: Codec) -> (Duration, u64) {
    let codec = black_box(codec);
    let mut out = [0u8; LONGEST];
    let (mut start, mut sum) = (0, 0u64);
    let begun = Instant::now();
    for &end in &all.ends {
        let bytes = &all.bytes[start..end];
        let length = unsafe { codec(16, 64, bytes.as_ptr(), bytes.len(), out.as_mut_ptr(), out.len()) };
        assert_eq!(length, end - start);
        sum = sum.wrapping_mul(31).wrapping_add(u64::from(out[length - 1]));
        start = end;
    }
    (begun.elapsed(), sum)
}

fn main() {
    let all = messages();
    match std::env::args().nth(1).as_deref() {
        Some("none") => println!("{}", all.bytes.len()),
        Some("plain") => println!("{}", pass(&all, plain_recode).1),
        Some("proved") => println!("{}", pass(&all, recode).1),
        _ => {
            let (mut with, mut without) = (Duration::MAX, Duration::MAX);
            for _ in 0..ROUNDS {
                let (plain, proved) = (pass(&all, plain_recode), pass(&all, recode));
                assert_eq!(plain.1, proved.1);
                (without, with) = (without.min(plain.0), with.min(proved.0));
            }
            let ratio = with.as_secs_f64() / without.as_secs_f64();
            println!("messages: {MESSAGES} decoded and encoded, best of {ROUNDS}: proved {with:?}, plain {without:?}, ratio {ratio:.2}");
        }
    }
}
