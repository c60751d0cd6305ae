//! The program `box`: lines in, lines out, and the file `yard`, synced before anything is said.

use crate::codec::{from_hex, to_hex, Message};
use crate::effects::{Effects, Said};
use crate::numbers::{BoxNumber, Engine, Refusal, Section, YardSize};
use crate::script::{parse_engine, parse_number, parse_section};
use crate::signal_box::{Input, Opened, SignalBox};
use std::collections::VecDeque;
use std::fs::{File, OpenOptions};
use std::io::{self, Read, Seek, SeekFrom, Write};
use std::path::Path;

/// How much input is read at once.
const CHUNK: usize = 64 * 1024;

/// How many lines share a sync.
#[derive(Clone, Copy, PartialEq, Eq, Debug)]
pub enum Grouping {
    /// All that are already there.
    Together,
    /// Each line has its own.
    Single,
}

/// Why the program ends early.
#[derive(Debug)]
pub enum Fault {
    Damage { at: usize },
    System(io::Error),
}

impl From<io::Error> for Fault {
    fn from(error: io::Error) -> Fault {
        Fault::System(error)
    }
}

impl std::fmt::Display for Fault {
    fn fmt(&self, f: &mut std::fmt::Formatter) -> std::fmt::Result {
        match self {
            Fault::Damage { at } => write!(f, "yard: damage at byte {at}"),
            Fault::System(error) => write!(f, "{error}"),
        }
    }
}

/// A line that a box reads.
enum Line {
    Take(Engine, Section),
    Free(Engine, Section),
    Second,
    Message(BoxNumber, Vec<u8>),
}

impl Line {
    fn read(line: &str, size: YardSize) -> Option<Line> {
        let words: Vec<&str> = line.split(' ').collect();
        match words[..] {
            ["second"] => Some(Line::Second),
            ["take", engine, section] => {
                Some(Line::Take(parse_engine(engine, size)?, parse_section(section, size)?))
            }
            ["free", engine, section] => {
                Some(Line::Free(parse_engine(engine, size)?, parse_section(section, size)?))
            }
            [from, hex] => {
                Some(Line::Message(size.box_number(parse_number(from)?)?, from_hex(hex)?))
            }
            _ => None,
        }
    }

    fn input(&self) -> Input<'_> {
        match self {
            Line::Take(engine, section) => Input::Take(*engine, *section),
            Line::Free(engine, section) => Input::Free(*engine, *section),
            Line::Second => Input::Second,
            Line::Message(from, bytes) => Input::Message { from: *from, bytes },
        }
    }
}

/// What some lines gave: bytes for the file, and then for standard output.
#[derive(Default)]
struct Batch {
    records: Vec<u8>,
    output: Vec<u8>,
}

impl Batch {
    fn say(&mut self, line: std::fmt::Arguments) {
        writeln!(self.output, "{line}").expect("writing to memory doesn't fail");
    }
}

/// A box with its open file.
struct Program {
    number: BoxNumber,
    size: YardSize,
    signal_box: SignalBox,
    file: File,
}

/// Runs the box whose file is in the folder, until its input ends.
pub fn run(
    number: BoxNumber,
    size: YardSize,
    folder: &Path,
    grouping: Grouping,
    mut input: impl Read,
    mut output: impl Write,
) -> Result<(), Fault> {
    let mut program = Program::open(number, size, folder)?;
    program.commit(program.reminders(), &mut output)?;
    let mut waiting = Vec::new();
    let mut chunk = vec![0; CHUNK];
    loop {
        let length = input.read(&mut chunk)?;
        if length == 0 {
            break;
        }
        waiting.extend_from_slice(&chunk[..length]);
        let whole = waiting.iter().rposition(|&byte| byte == b'\n').map_or(0, |end| end + 1);
        program.lines(&waiting[..whole], grouping, &mut output)?;
        waiting.drain(..whole);
    }
    program.lines(&waiting, grouping, &mut output)?;
    Ok(())
}

impl Program {
    /// Opens the file, or makes it, and cuts away a last record that is cut short.
    fn open(number: BoxNumber, size: YardSize, folder: &Path) -> Result<Program, Fault> {
        let mut options = OpenOptions::new();
        options.read(true).write(true).create(true).truncate(false);
        let mut file = options.open(folder.join("yard"))?;
        let mut bytes = Vec::new();
        file.read_to_end(&mut bytes)?;
        let opened = SignalBox::open(number, size, &bytes);
        let Opened { signal_box, whole } =
            opened.map_err(|damage| Fault::Damage { at: damage.at })?;
        if whole < bytes.len() {
            file.set_len(whole as u64)?;
            file.sync_data()?;
        }
        file.seek(SeekFrom::Start(whole as u64))?;
        Ok(Program { number, size, signal_box, file })
    }

    /// Reminds of the engines that are giving back.
    fn reminders(&self) -> Batch {
        let mut batch = Batch::default();
        for engine in self.signal_box.giving_back() {
            batch.say(format_args!("giving back {engine}"));
        }
        batch
    }

    /// Deals with whole lines.
    fn lines(
        &mut self,
        text: &[u8],
        grouping: Grouping,
        output: &mut impl Write,
    ) -> io::Result<()> {
        let mut batch = Batch::default();
        for line in text.split_inclusive(|&byte| byte == b'\n') {
            self.line(line.strip_suffix(b"\n").unwrap_or(line), &mut batch);
            if grouping == Grouping::Single {
                self.commit(std::mem::take(&mut batch), output)?;
            }
        }
        self.commit(batch, output)
    }

    fn line(&mut self, line: &[u8], batch: &mut Batch) {
        let read = std::str::from_utf8(line).ok().and_then(|text| Line::read(text, self.size));
        match read {
            Some(line) => self.feed(line.input(), batch),
            None => batch.say(format_args!("refused {}", Refusal::Invalid)),
        }
    }

    /// Deals with an input and, in order, with all that the box sends to itself because of it.
    fn feed(&mut self, input: Input, batch: &mut Batch) {
        let mut to_itself = VecDeque::new();
        self.step(input, batch, &mut to_itself);
        while let Some(message) = to_itself.pop_front() {
            let input = Input::Message { from: self.number, bytes: &message.encode() };
            self.step(input, batch, &mut to_itself);
        }
    }

    fn step(&mut self, input: Input, batch: &mut Batch, to_itself: &mut VecDeque<Message>) {
        let Effects { records, said } = self.signal_box.handle(input);
        for record in records {
            record.write(&mut batch.records);
        }
        for said in said {
            match said {
                Said::Send(to, message) if to == self.number => to_itself.push_back(message),
                Said::Send(to, message) => {
                    batch.say(format_args!("{to} {}", to_hex(&message.encode())))
                }
                Said::Had(engine, section) => batch.say(format_args!("had {engine} {section}")),
                Said::GiveBack(engine) => batch.say(format_args!("give back {engine}")),
                Said::Refused(refusal) => batch.say(format_args!("refused {refusal}")),
            }
        }
    }

    /// Records first, synced; only then what rests on them.
    fn commit(&mut self, batch: Batch, output: &mut impl Write) -> io::Result<()> {
        if !batch.records.is_empty() {
            self.file.write_all(&batch.records)?;
            self.file.sync_data()?;
        }
        output.write_all(&batch.output)?;
        output.flush()
    }
}
