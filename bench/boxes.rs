//! The program `box` beside the second program in plain Rust: the same lines in, the same writes, the same lines out.
//! Usage: boxes FOLDER NAME=PROGRAM NAME=PROGRAM: the first is measured beside the second.

use std::fs;
use std::io::{BufRead, BufReader, Read, Write};
use std::path::{Path, PathBuf};
use std::process::{Child, Command, Stdio};
use std::time::Instant;

/// Lines at once, lines one by one, and how often each is measured; the best counts.
const TOGETHER: usize = 200_000;
const ONE_BY_ONE: usize = 1_500;
const ROUNDS: usize = 5;
/// Lines over which memory must stay flat, and records of the longest file that is opened.
const MANY: usize = 1_000_000;

/// A box's program: a path, and first arguments after blanks.
struct Program {
    name: String,
    words: Vec<String>,
}

impl Program {
    fn parse(text: &str) -> Program {
        let (name, program) = text.split_once('=').expect("NAME=PROGRAM");
        let words = program.split(' ').map(str::to_string).collect();
        Program { name: name.to_string(), words }
    }

    /// Box 0 of a yard of 2 boxes and 64 engines, its file in the folder.
    fn start(&self, folder: &Path) -> Child {
        Command::new(&self.words[0])
            .args(&self.words[1..])
            .args(["0", "64", "2"])
            .current_dir(folder)
            .stdin(Stdio::piped())
            .stdout(Stdio::piped())
            .spawn()
            .expect("the program starts")
    }
}

/// Calls of the engines at home in box 1: each takes a section of box 0 and frees it again, over and over. Each line gives a record and an answer.
fn call_line(index: usize) -> String {
    let engine = 2 * (index % 32) + 1;
    let number = index / 32 + 1;
    let kind = if number % 2 == 1 { 1 } else { 2 };
    format!("1 {kind:02x}{engine:02x}00{:02x}{number:08x}\n", index % 32)
}

fn lines(count: usize) -> Vec<u8> {
    (0..count).flat_map(|index| call_line(index).into_bytes()).collect()
}

fn fresh(folder: &Path) -> PathBuf {
    let path = folder.join("run");
    let _ = fs::remove_dir_all(&path);
    fs::create_dir_all(&path).expect("a folder can be made");
    path
}

/// Seconds for all lines, which are there at once; and how many lines came out.
fn together(program: &Program, folder: &Path, text: &[u8]) -> (f64, usize) {
    let folder = fresh(folder);
    let start = Instant::now();
    let mut child = program.start(&folder);
    let mut input = child.stdin.take().expect("it is piped");
    let mut output = Vec::new();
    std::thread::scope(|scope| {
        scope.spawn(move || input.write_all(text).expect("it reads"));
        child.stdout.take().expect("it is piped").read_to_end(&mut output).expect("it writes");
    });
    assert!(child.wait().expect("it ends").success());
    (start.elapsed().as_secs_f64(), output.iter().filter(|&&byte| byte == b'\n').count())
}

/// Seconds for lines of which each waits for the answer to the one before: a sync for each.
fn one_by_one(program: &Program, folder: &Path, count: usize) -> f64 {
    let mut child = program.start(&fresh(folder));
    let mut input = child.stdin.take().expect("it is piped");
    let mut output = BufReader::new(child.stdout.take().expect("it is piped"));
    let start = Instant::now();
    for index in 0..count {
        input.write_all(call_line(index).as_bytes()).expect("it reads");
        output.read_line(&mut String::new()).expect("it answers");
    }
    let seconds = start.elapsed().as_secs_f64();
    drop(input);
    assert!(child.wait().expect("it ends").success());
    seconds
}

/// Kilobytes in memory now.
fn resident(child: &Child) -> usize {
    let status = fs::read_to_string(format!("/proc/{}/status", child.id())).expect("it runs");
    let line = status.lines().find(|line| line.starts_with("VmRSS:")).expect("it has memory");
    line.split_whitespace().nth(1).and_then(|word| word.parse().ok()).expect("a number")
}

/// Kilobytes after a tenth of the lines and after all.
fn memory(program: &Program, folder: &Path) -> (usize, usize) {
    let mut child = program.start(&fresh(folder));
    let mut input = child.stdin.take().expect("it is piped");
    let mut output = BufReader::new(child.stdout.take().expect("it is piped"));
    let mut early = 0;
    let mut answer = String::new();
    let step = 1_000;
    for from in (0..MANY).step_by(step) {
        let text: Vec<u8> = (from..from + step).flat_map(|index| call_line(index).into_bytes()).collect();
        input.write_all(&text).expect("it reads");
        for _ in 0..step {
            answer.clear();
            output.read_line(&mut answer).expect("it answers");
        }
        if from + step == MANY / 10 {
            early = resident(&child);
        }
    }
    let late = resident(&child);
    drop(input);
    assert!(child.wait().expect("it ends").success());
    (early, late)
}

/// Seconds to open the first records of a file.
fn opening(program: &Program, folder: &Path, file: &[u8]) -> f64 {
    let folder = fresh(folder);
    fs::write(folder.join("yard"), file).expect("a file can be written");
    let start = Instant::now();
    let mut child = program.start(&folder);
    drop(child.stdin.take());
    assert!(child.wait().expect("it ends").success());
    start.elapsed().as_secs_f64()
}

fn best(mut measure: impl FnMut() -> f64) -> f64 {
    (0..ROUNDS).map(|_| measure()).fold(f64::INFINITY, f64::min)
}

fn main() {
    let words: Vec<String> = std::env::args().skip(1).collect();
    let [folder, ours, plain] = &words[..] else { panic!("usage: boxes FOLDER NAME=PROGRAM NAME=PROGRAM") };
    let (folder, ours, plain) = (Path::new(folder), Program::parse(ours), Program::parse(plain));
    let text = lines(TOGETHER);
    let rate = |program: &Program| TOGETHER as f64 / best(|| together(program, folder, &text).0);
    let single = |program: &Program| ONE_BY_ONE as f64 / best(|| one_by_one(program, folder, ONE_BY_ONE));
    assert_eq!(together(&ours, folder, &text).1, TOGETHER);
    let (our_rate, plain_rate) = (rate(&ours), rate(&plain));
    let (our_single, plain_single) = (single(&ours), single(&plain));
    println!("box: group commit: {our_rate:.0} lines/s, {}: {plain_rate:.0}: ratio {:.2}", plain.name, our_rate / plain_rate);
    println!("box: a sync for each line: {our_single:.0} lines/s, {}: {plain_single:.0}: ratio {:.2}", plain.name, our_single / plain_single);
    println!("box: group commit beside a sync for each line: {:.1} times as many lines", our_rate / our_single);
    let (early, late) = memory(&ours, folder);
    println!("{}: memory after {} lines: {early} kB, after {MANY}: {late} kB", ours.name, MANY / 10);
    let file = fs::read(folder.join("run/yard")).expect("it left a file");
    let bytes = file.len() / MANY;
    let times = [4, 2, 1].map(|part| best(|| opening(&ours, folder, &file[..MANY / part * bytes])));
    let plain_time = best(|| opening(&plain, folder, &file));
    println!(
        "{}: opening {}, {} and {MANY} records: {:.3} s, {:.3} s, {:.3} s; {}: {plain_time:.3} s for the last",
        ours.name, MANY / 4, MANY / 2, times[0], times[1], times[2], plain.name
    );
    let flat = late <= early + early / 20;
    let linear = times[2] <= 5.0 * times[0] + 0.05;
    if our_rate < 0.8 * plain_rate || !flat || !linear {
        eprintln!("box: a limit is passed: at least 0.8 of plain Rust, flat memory, opening in linear time");
        std::process::exit(1);
    }
}
