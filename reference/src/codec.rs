//! Messages and records as bytes, and bytes as hexadecimal text.

use crate::numbers::{Engine, Refusal, Section, YardSize};

/// The byte that stands for nobody where a holder is named.
const NOBODY: u8 = 255;

/// First bytes of messages and records that aren't calls.
mod first {
    pub const ANSWER: u8 = 4;
    pub const CHANGE: u8 = 5;
    pub const WHICH_CHANGE: u8 = 6;
    pub const SIGN: u8 = 7;
    pub const WAITS: u8 = 12;
    pub const BEGINNING: u8 = 8;
    pub const HEARD: u8 = 9;
    pub const HOME_CALL: u8 = 10;
}

/// What a call asks for.
#[derive(Clone, Copy, PartialEq, Eq, Debug)]
pub enum CallKind {
    Take = 1,
    Free = 2,
    GiveUp = 3,
}

impl CallKind {
    fn from_byte(byte: u8) -> Option<CallKind> {
        match byte {
            1 => Some(CallKind::Take),
            2 => Some(CallKind::Free),
            3 => Some(CallKind::GiveUp),
            _ => None,
        }
    }

    /// Its word in the lines of `show`.
    pub fn word(self) -> &'static str {
        match self {
            CallKind::Take => "take",
            CallKind::Free => "free",
            CallKind::GiveUp => "give-up",
        }
    }
}

/// A call of an engine for a section, numbered for each engine and box.
#[derive(Clone, Copy, PartialEq, Eq, Debug)]
pub struct Call {
    pub kind: CallKind,
    pub engine: Engine,
    pub section: Section,
    pub number: u32,
}

/// What became of a call.
#[derive(Clone, Copy, PartialEq, Eq, Debug)]
pub enum Verdict {
    Done,
    Waits,
    Refused(Refusal),
}

/// A keeper's answer to a call; holder and change are those after the call.
#[derive(Clone, Copy, PartialEq, Eq, Debug)]
pub struct Answer {
    pub engine: Engine,
    pub number: u32,
    pub verdict: Verdict,
    pub holder: Option<Engine>,
    pub change: u32,
}

/// Who has a section since its latest change.
#[derive(Clone, Copy, PartialEq, Eq, Debug)]
pub struct Change {
    pub section: Section,
    pub holder: Option<Engine>,
    pub change: u32,
}

/// The sign that `by` shows, told to an engine that waits for it.
#[derive(Clone, Copy, PartialEq, Eq, Debug)]
pub struct Sign {
    pub to: Engine,
    pub count: u32,
    pub by: Engine,
    pub sign: u64,
}

/// An engine's word that it waits for a section.
#[derive(Clone, Copy, PartialEq, Eq, Debug)]
pub struct Waits {
    pub engine: Engine,
    pub section: Section,
    pub count: u32,
    pub change: u32,
}

/// What boxes send to each other.
#[derive(Clone, Copy, PartialEq, Eq, Debug)]
pub enum Message {
    Call(Call),
    Answer(Answer),
    Change(Change),
    WhichChange { engine: Engine, section: Section },
    Sign(Sign),
    Waits(Waits),
}

/// The beginning of a wait.
#[derive(Clone, Copy, PartialEq, Eq, Debug)]
pub struct Beginning {
    pub engine: Engine,
    pub section: Section,
    pub change: u32,
    pub for_whom: Engine,
    pub count: u32,
    pub own: u64,
}

/// What a box writes into its file.
#[derive(Clone, Copy, PartialEq, Eq, Debug)]
pub enum Record {
    /// A call that used up its number at its keeper.
    KeeperCall(Call),
    Beginning(Beginning),
    /// A sign heard, and shown from now on.
    Heard {
        engine: Engine,
        sign: u64,
    },
    /// A call of an engine, at its home.
    HomeCall(Call),
}

/// What stands at the head of a list of records.
#[derive(Clone, Copy, PartialEq, Eq, Debug)]
pub enum NextRecord {
    Whole(Record, usize),
    CutShort,
    Damaged,
}

/// Takes numbers from the front of bytes; `None` once there are too few or one is out of range.
struct Reader<'a> {
    rest: &'a [u8],
    size: YardSize,
}

impl Reader<'_> {
    fn bytes<const N: usize>(&mut self) -> Option<[u8; N]> {
        let (head, rest) = self.rest.split_first_chunk()?;
        self.rest = rest;
        Some(*head)
    }

    fn byte(&mut self) -> Option<u8> {
        self.bytes().map(u8::from_be_bytes)
    }

    fn four(&mut self) -> Option<u32> {
        self.bytes().map(u32::from_be_bytes)
    }

    fn eight(&mut self) -> Option<u64> {
        self.bytes().map(u64::from_be_bytes)
    }

    fn engine(&mut self) -> Option<Engine> {
        let number = self.byte()?;
        self.size.engine(number)
    }

    fn section(&mut self) -> Option<Section> {
        let [owner, place] = self.bytes()?;
        self.size.section(owner, place)
    }

    fn holder(&mut self) -> Option<Option<Engine>> {
        match self.byte()? {
            NOBODY => Some(None),
            number => self.size.engine(number).map(Some),
        }
    }

    fn call(&mut self, kind: CallKind) -> Option<Call> {
        let engine = self.engine()?;
        let section = self.section()?;
        let number = self.four()?;
        Some(Call { kind, engine, section, number })
    }

    fn answer(&mut self) -> Option<Answer> {
        let engine = self.engine()?;
        let number = self.four()?;
        let verdict_byte = self.byte()?;
        let holder = self.holder()?;
        let change = self.four()?;
        let verdict = match verdict_byte {
            1 => Verdict::Done,
            2 => Verdict::Waits,
            0 => Verdict::Refused(self.call_refusal()?),
            _ => return None,
        };
        Some(Answer { engine, number, verdict, holder, change })
    }

    /// The refusals that an answer may carry.
    fn call_refusal(&mut self) -> Option<Refusal> {
        match self.byte()? {
            3 => Some(Refusal::Waiting),
            4 => Some(Refusal::Possession),
            7 => Some(Refusal::Limit),
            _ => None,
        }
    }

    fn change(&mut self) -> Option<Change> {
        let section = self.section()?;
        let holder = self.holder()?;
        let change = self.four()?;
        Some(Change { section, holder, change })
    }

    fn sign(&mut self) -> Option<Sign> {
        let to = self.engine()?;
        let count = self.four()?;
        let by = self.engine()?;
        let sign = self.eight()?;
        Some(Sign { to, count, by, sign })
    }

    fn waits(&mut self) -> Option<Waits> {
        let engine = self.engine()?;
        let section = self.section()?;
        let count = self.four()?;
        let change = self.four()?;
        Some(Waits { engine, section, count, change })
    }

    fn message(&mut self) -> Option<Message> {
        match self.byte()? {
            first::ANSWER => self.answer().map(Message::Answer),
            first::CHANGE => self.change().map(Message::Change),
            first::WHICH_CHANGE => {
                let engine = self.engine()?;
                let section = self.section()?;
                Some(Message::WhichChange { engine, section })
            }
            first::SIGN => self.sign().map(Message::Sign),
            first::WAITS => self.waits().map(Message::Waits),
            byte => self.call(CallKind::from_byte(byte)?).map(Message::Call),
        }
    }

    fn beginning(&mut self) -> Option<Beginning> {
        let engine = self.engine()?;
        let section = self.section()?;
        let change = self.four()?;
        let for_whom = self.engine()?;
        let count = self.four()?;
        let own = self.eight()?;
        Some(Beginning { engine, section, change, for_whom, count, own })
    }

    fn record(&mut self) -> Option<Record> {
        match self.byte()? {
            first::BEGINNING => self.beginning().map(Record::Beginning),
            first::HEARD => {
                let engine = self.engine()?;
                let sign = self.eight()?;
                Some(Record::Heard { engine, sign })
            }
            first::HOME_CALL => {
                let kind = CallKind::from_byte(self.byte()?)?;
                self.call(kind).map(Record::HomeCall)
            }
            byte => self.call(CallKind::from_byte(byte)?).map(Record::KeeperCall),
        }
    }
}

impl Call {
    fn write(&self, bytes: &mut Vec<u8>) {
        bytes.extend([self.kind as u8, self.engine.0, self.section.owner.0, self.section.place]);
        bytes.extend(self.number.to_be_bytes());
    }
}

impl Answer {
    fn write(&self, bytes: &mut Vec<u8>) {
        bytes.extend([first::ANSWER, self.engine.0]);
        bytes.extend(self.number.to_be_bytes());
        bytes.push(match self.verdict {
            Verdict::Done => 1,
            Verdict::Waits => 2,
            Verdict::Refused(_) => 0,
        });
        bytes.push(holder_byte(self.holder));
        bytes.extend(self.change.to_be_bytes());
        if let Verdict::Refused(refusal) = self.verdict {
            bytes.push(refusal.number());
        }
    }
}

impl Message {
    /// The message that the bytes stand for, if they stand for one in a yard of this size.
    pub fn decode(bytes: &[u8], size: YardSize) -> Option<Message> {
        let mut reader = Reader { rest: bytes, size };
        let message = reader.message()?;
        reader.rest.is_empty().then_some(message)
    }

    pub fn encode(&self) -> Vec<u8> {
        let mut bytes = Vec::with_capacity(15);
        self.write(&mut bytes);
        bytes
    }

    fn write(&self, bytes: &mut Vec<u8>) {
        match self {
            Message::Call(call) => call.write(bytes),
            Message::Answer(answer) => answer.write(bytes),
            Message::Change(change) => {
                let Section { owner, place } = change.section;
                bytes.extend([first::CHANGE, owner.0, place, holder_byte(change.holder)]);
                bytes.extend(change.change.to_be_bytes());
            }
            Message::WhichChange { engine, section } => {
                bytes.extend([first::WHICH_CHANGE, engine.0, section.owner.0, section.place]);
            }
            Message::Sign(sign) => {
                bytes.extend([first::SIGN, sign.to.0]);
                bytes.extend(sign.count.to_be_bytes());
                bytes.push(sign.by.0);
                bytes.extend(sign.sign.to_be_bytes());
            }
            Message::Waits(waits) => {
                let Section { owner, place } = waits.section;
                bytes.extend([first::WAITS, waits.engine.0, owner.0, place]);
                bytes.extend(waits.count.to_be_bytes());
                bytes.extend(waits.change.to_be_bytes());
            }
        }
    }
}

fn holder_byte(holder: Option<Engine>) -> u8 {
    holder.map_or(NOBODY, |engine| engine.0)
}

impl Record {
    /// Reads the record at the front of `bytes`, which aren't empty.
    pub fn read(bytes: &[u8], size: YardSize) -> NextRecord {
        let Some(length) = bytes.first().and_then(|&byte| record_length(byte)) else {
            return NextRecord::Damaged;
        };
        let Some(whole) = bytes.get(..length) else {
            return NextRecord::CutShort;
        };
        match (Reader { rest: whole, size }).record() {
            Some(record) => NextRecord::Whole(record, length),
            None => NextRecord::Damaged,
        }
    }

    /// Appends the record's bytes.
    pub fn write(&self, bytes: &mut Vec<u8>) {
        match self {
            Record::KeeperCall(call) => call.write(bytes),
            Record::Beginning(beginning) => {
                let Section { owner, place } = beginning.section;
                bytes.extend([first::BEGINNING, beginning.engine.0, owner.0, place]);
                bytes.extend(beginning.change.to_be_bytes());
                bytes.push(beginning.for_whom.0);
                bytes.extend(beginning.count.to_be_bytes());
                bytes.extend(beginning.own.to_be_bytes());
            }
            Record::Heard { engine, sign } => {
                bytes.extend([first::HEARD, engine.0]);
                bytes.extend(sign.to_be_bytes());
            }
            Record::HomeCall(call) => {
                bytes.push(first::HOME_CALL);
                call.write(bytes);
            }
        }
    }
}

/// The length of a record by its first byte.
fn record_length(byte: u8) -> Option<usize> {
    match byte {
        1..=3 => Some(8),
        first::BEGINNING => Some(21),
        first::HEARD => Some(10),
        first::HOME_CALL => Some(9),
        _ => None,
    }
}

/// Bytes as lower-case hexadecimal digits.
pub fn to_hex(bytes: &[u8]) -> String {
    const DIGITS: &[u8; 16] = b"0123456789abcdef";
    let digit = |value: u8| char::from(DIGITS[usize::from(value)]);
    bytes.iter().flat_map(|&byte| [digit(byte >> 4), digit(byte & 15)]).collect()
}

/// The bytes that pairs of hexadecimal digits stand for.
pub fn from_hex(text: &str) -> Option<Vec<u8>> {
    let digits: Option<Vec<u8>> =
        text.chars().map(|digit| digit.to_digit(16).map(|value| value as u8)).collect();
    let digits = digits?;
    let pairs = digits.chunks_exact(2);
    pairs.remainder().is_empty().then(|| pairs.map(|pair| pair[0] << 4 | pair[1]).collect())
}

#[cfg(test)]
mod tests {
    use super::*;
    use crate::numbers::BoxNumber;

    fn size() -> YardSize {
        YardSize::new(3, 4).unwrap()
    }

    fn section() -> Section {
        Section { owner: BoxNumber(2), place: 63 }
    }

    fn call(kind: CallKind) -> Call {
        Call { kind, engine: Engine(3), section: section(), number: 0x01020304 }
    }

    fn answer(verdict: Verdict, holder: Option<Engine>) -> Message {
        Message::Answer(Answer { engine: Engine(1), number: 5, verdict, holder, change: 6 })
    }

    fn messages() -> Vec<(Message, &'static str)> {
        let change = Change { section: section(), holder: None, change: 9 };
        let sign = Sign { to: Engine(0), count: 7, by: Engine(3), sign: 258 };
        let waits = Waits { engine: Engine(1), section: section(), count: 2, change: 3 };
        vec![
            (Message::Call(call(CallKind::Take)), "0103023f01020304"),
            (Message::Call(call(CallKind::Free)), "0203023f01020304"),
            (Message::Call(call(CallKind::GiveUp)), "0303023f01020304"),
            (answer(Verdict::Done, Some(Engine(1))), "040100000005010100000006"),
            (answer(Verdict::Waits, Some(Engine(2))), "040100000005020200000006"),
            (answer(Verdict::Refused(Refusal::Limit), None), "04010000000500ff0000000607"),
            (Message::Change(change), "05023fff00000009"),
            (Message::WhichChange { engine: Engine(2), section: section() }, "0602023f"),
            (Message::Sign(sign), "070000000007030000000000000102"),
            (Message::Waits(waits), "0c01023f0000000200000003"),
        ]
    }

    #[test]
    fn messages_are_these_bytes() {
        for (message, hex) in messages() {
            assert_eq!(to_hex(&message.encode()), hex);
            assert_eq!(Message::decode(&from_hex(hex).unwrap(), size()), Some(message));
        }
    }

    #[test]
    fn a_cut_or_longer_message_is_none() {
        for (message, _) in messages() {
            let mut bytes = message.encode();
            for length in 0..bytes.len() {
                assert_eq!(Message::decode(&bytes[..length], size()), None);
            }
            bytes.push(0);
            assert_eq!(Message::decode(&bytes, size()), None);
        }
    }

    #[test]
    fn values_out_of_range_are_none() {
        let wrong = [
            "",
            "0003023f01020304",
            "0104023f01020304",
            "0103033f01020304",
            "0103024001020304",
            "040100000005030100000006",
            "040100000005010400000006",
            "04010000000500ff0000000602",
            "04010000000501ff0000000607",
            "05023f0400000009",
            "070000000007040000000000000102",
            "0801023f0000000200000003",
        ];
        for hex in wrong {
            assert_eq!(Message::decode(&from_hex(hex).unwrap(), size()), None, "{hex}");
        }
    }

    #[test]
    fn what_decodes_encodes_to_the_same_bytes() {
        let mut random = crate::random::Random::new(1);
        for _ in 0..200_000 {
            let length = random.below(16);
            let mut bytes: Vec<u8> = (0..length).map(|_| random.below(6) as u8).collect();
            if let Some(first) = bytes.first_mut() {
                *first = random.below(14) as u8;
            }
            if let Some(message) = Message::decode(&bytes, size()) {
                assert_eq!(message.encode(), bytes);
            }
        }
    }

    fn records() -> Vec<(Record, &'static str)> {
        let beginning = Beginning {
            engine: Engine(1),
            section: section(),
            change: 3,
            for_whom: Engine(2),
            count: 4,
            own: 5,
        };
        vec![
            (Record::KeeperCall(call(CallKind::Free)), "0203023f01020304"),
            (Record::Beginning(beginning), "0801023f0000000302000000040000000000000005"),
            (Record::Heard { engine: Engine(3), sign: 6 }, "09030000000000000006"),
            (Record::HomeCall(call(CallKind::GiveUp)), "0a0303023f01020304"),
        ]
    }

    #[test]
    fn records_are_these_bytes_and_shorter_ones_are_cut() {
        for (record, hex) in records() {
            let mut bytes = Vec::new();
            record.write(&mut bytes);
            assert_eq!(to_hex(&bytes), hex);
            assert_eq!(Record::read(&bytes, size()), NextRecord::Whole(record, bytes.len()));
            for length in 1..bytes.len() {
                assert_eq!(Record::read(&bytes[..length], size()), NextRecord::CutShort);
            }
        }
    }

    #[test]
    fn a_wrong_record_is_damage() {
        let wrong = ["00", "04", "0104023f01020304", "0a0403023f01020304", "09040000000000000006"];
        for hex in wrong {
            assert_eq!(Record::read(&from_hex(hex).unwrap(), size()), NextRecord::Damaged, "{hex}");
        }
    }

    #[test]
    fn hexadecimal_of_odd_length_or_other_letters_is_none() {
        assert_eq!(from_hex("0fA0"), Some(vec![0x0f, 0xa0]));
        assert_eq!(from_hex("0fa"), None);
        assert_eq!(from_hex("0g"), None);
    }
}
