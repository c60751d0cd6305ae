//! Runs another program `box` beside this one: same lines in, same lines out, same file.

use crate::codec::to_hex;
use crate::compare::Scripts;
use crate::generate::generate;
use crate::numbers::{BoxNumber, YardSize};
use crate::program::{self, Fault, Grouping};
use crate::random::Random;
use crate::script::{Line, LineReader};
use crate::yard::{Command, Yard};
use std::fs;
use std::io::{self, Read, Write};
use std::path::{Path, PathBuf};
use std::process::{self, Stdio};

/// A folder for one comparison, gone when that ends.
struct Scratch {
    path: PathBuf,
}

impl Scratch {
    fn new() -> io::Result<Scratch> {
        let path = std::env::temp_dir().join(format!("compare-box-{}", process::id()));
        fs::create_dir_all(path.join("ours"))?;
        fs::create_dir_all(path.join("theirs"))?;
        Ok(Scratch { path })
    }

    fn ours(&self) -> PathBuf {
        self.path.join("ours")
    }

    fn theirs(&self) -> PathBuf {
        self.path.join("theirs")
    }

    /// Both begin with this file.
    fn set_file(&self, bytes: &[u8]) -> io::Result<()> {
        fs::write(self.ours().join("yard"), bytes)?;
        fs::write(self.theirs().join("yard"), bytes)
    }
}

impl Drop for Scratch {
    fn drop(&mut self) {
        let _ = fs::remove_dir_all(&self.path);
    }
}

/// How a run ended.
#[derive(Clone, Copy, PartialEq, Eq, Debug)]
enum Ended {
    Well,
    /// It said at which byte its file is damaged.
    Damaged {
        at: usize,
    },
    WithFault,
}

/// What a run leaves to be compared.
#[derive(PartialEq, Eq, Debug)]
struct Run {
    ended: Ended,
    output: String,
    file: Vec<u8>,
}

/// Which box of which yard.
#[derive(Clone, Copy, Debug)]
pub struct Which {
    pub number: BoxNumber,
    pub size: YardSize,
}

fn run_ours(which: Which, folder: &Path, input: &str) -> io::Result<Run> {
    let mut output = Vec::new();
    let Which { number, size } = which;
    let done =
        program::run(number, size, folder, Grouping::Together, input.as_bytes(), &mut output);
    let ended = match done {
        Ok(()) => Ended::Well,
        Err(Fault::Damage { at }) => Ended::Damaged { at },
        Err(Fault::System(_)) => Ended::WithFault,
    };
    let output = String::from_utf8_lossy(&output).into_owned();
    Ok(Run { ended, output, file: fs::read(folder.join("yard"))? })
}

/// `program` may have first arguments of its own, after blanks.
fn run_theirs(program: &str, which: Which, folder: &Path, input: &str) -> io::Result<Run> {
    let mut words = program.split(' ');
    let path = fs::canonicalize(words.next().unwrap_or_default())?;
    let size = [which.number.index(), which.size.engine_count(), which.size.box_count()];
    let mut child = process::Command::new(path)
        .args(words)
        .args(size.map(|number| number.to_string()))
        .current_dir(folder)
        .stdin(Stdio::piped())
        .stdout(Stdio::piped())
        .stderr(Stdio::piped())
        .spawn()?;
    let mut stdin = child.stdin.take().expect("it is piped");
    let text = input.to_string();
    // A program that ends at once, as on damage, doesn't read its input.
    let writer = std::thread::spawn(move || stdin.write_all(text.as_bytes()));
    let mut output = Vec::new();
    child.stdout.take().expect("it is piped").read_to_end(&mut output)?;
    let mut complaint = String::new();
    child.stderr.take().expect("it is piped").read_to_string(&mut complaint)?;
    let ended = how_ended(child.wait()?.success(), &complaint);
    let _ = writer.join().expect("writing doesn't panic");
    let output = String::from_utf8_lossy(&output).into_owned();
    Ok(Run { ended, output, file: fs::read(folder.join("yard"))? })
}

/// By its status and what it said on standard error, `.. damage at byte N`.
fn how_ended(success: bool, complaint: &str) -> Ended {
    let at = complaint.trim_end().rsplit_once("damage at byte ").map(|(_, at)| at.parse());
    match (success, at) {
        (true, _) => Ended::Well,
        (false, Some(Ok(at))) => Ended::Damaged { at },
        (false, _) => Ended::WithFault,
    }
}

/// Runs both on the same input; says how they differ, if they do.
fn both(program: &str, which: Which, scratch: &Scratch, input: &str) -> Result<usize, String> {
    let ours = run_ours(which, &scratch.ours(), input).map_err(|error| error.to_string())?;
    let theirs = run_theirs(program, which, &scratch.theirs(), input);
    let theirs = theirs.map_err(|error| format!("{program}: {error}"))?;
    let pairs = ours.output.lines().zip(theirs.output.lines());
    if let Some((index, (our, their))) = pairs.enumerate().find(|(_, (our, their))| our != their) {
        let line = index + 1;
        return Err(format!("line {line} of the output\n  reference: {our}\n  program:   {their}"));
    }
    if ours != theirs {
        let sum_up = |run: &Run| {
            let lines = run.output.lines().count();
            format!("ended {:?}, {lines} lines, file of {} bytes", run.ended, run.file.len())
        };
        return Err(format!("\n  reference: {}\n  program:   {}", sum_up(&ours), sum_up(&theirs)));
    }
    Ok(ours.output.lines().count())
}

/// Compares on generated lines, over a stop in the middle; a line that sums up.
pub fn compare_box(program: &str, scripts: Scripts) -> Result<String, String> {
    let scratch = Scratch::new().map_err(|error| error.to_string())?;
    let mut lines = 0;
    for seed in scripts.seeds() {
        let (which, input) = box_lines(seed, scripts.lines);
        scratch.set_file(&[]).map_err(|error| error.to_string())?;
        for half in input.chunks(input.len().div_ceil(2).max(1)) {
            let text: String = half.iter().flat_map(|line| [line.as_str(), "\n"]).collect();
            lines += both(program, which, &scratch, &text)
                .map_err(|wrong| format!("seed {seed}, box {}: {wrong}", which.number))?;
        }
    }
    Ok(format!("compare-box: {} runs, {lines} lines out: same", scripts.count))
}

/// The lines that one box of a generated script reads, with some that can't be read.
fn box_lines(seed: u64, lines: usize) -> (Which, Vec<String>) {
    let mut random = Random::new(!seed);
    let mut reader = LineReader::default();
    let mut yard: Option<Yard> = None;
    let mut number = BoxNumber(0);
    let mut input = Vec::new();
    for line in generate(seed, lines, None) {
        match (reader.read(&line), &mut yard) {
            (Line::Yard(size), _) => {
                number = BoxNumber(random.below(size.box_count()) as u8);
                yard = Some(Yard::new(size));
            }
            (Line::Command(command), Some(yard)) => {
                input.extend(line_for(number, command, yard));
                yard.play(command);
            }
            (Line::Unreadable, _) => input.push(line),
            _ => {}
        }
    }
    let size = yard.expect("a script names its yard").size();
    (Which { number, size }, input)
}

/// The line by which a command comes to the box, if it does.
fn line_for(number: BoxNumber, command: Command, yard: &Yard) -> Option<String> {
    let at_home = |engine| yard.size().home(engine) == number || engine.0 == 0;
    let arriving =
        |message| yard.message(message).filter(|it| it.to == number && it.from != number);
    match command {
        Command::Take(engine, section) if at_home(engine) => {
            Some(format!("take {engine} {section}"))
        }
        Command::Free(engine, section) if at_home(engine) => {
            Some(format!("free {engine} {section}"))
        }
        Command::Second(other) if other == number => Some("second".to_string()),
        Command::Deliver(message) => {
            arriving(message).map(|it| format!("{} {}", it.from, to_hex(&it.bytes)))
        }
        Command::Cut(message, length) if length > 0 => {
            let envelope = arriving(message)?;
            let bytes = envelope.bytes.get(..length)?;
            Some(format!("{} {}", envelope.from, to_hex(bytes)))
        }
        _ => None,
    }
}

/// Compares on a file cut at every byte, and on one with each byte changed; a line that sums up.
pub fn compare_cuts(program: &str, which: Which, file: &[u8]) -> Result<String, String> {
    let scratch = Scratch::new().map_err(|error| error.to_string())?;
    let compare = |bytes: &[u8]| {
        scratch.set_file(bytes).map_err(|error| error.to_string())?;
        both(program, which, &scratch, "second\n")
    };
    for length in 0..=file.len() {
        compare(&file[..length]).map_err(|wrong| format!("cut to {length} bytes: {wrong}"))?;
    }
    for at in 0..file.len() {
        let mut changed = file.to_vec();
        changed[at] ^= 0x40 | (at % 7) as u8;
        compare(&changed).map_err(|wrong| format!("byte {at} changed: {wrong}"))?;
    }
    Ok(format!("compare-cuts: {} bytes, cut at each and each changed: same", file.len()))
}
