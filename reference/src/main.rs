//! `reference`: plays, checks, generates and compares scripts.

use reference::bench::{bench, Kind};
use reference::check::check_script;
use reference::compare::{compare, statistics, Scripts};
use reference::compare_box::{compare_box, compare_cuts, Which};
use reference::generate::generate;
use reference::numbers::{YardSize, MAX_BOXES};
use reference::program::{self, Grouping};
use reference::replay::replay_lines;
use reference::script::{parse_number, Player};
use std::fs;
use std::io::{self, BufRead, BufWriter, Read, Write};
use std::process::ExitCode;

const USAGE: &str = "usage:
  reference rehearse < SCRIPT                      plays a script
  reference check < SCRIPT                         plays and checks it
  reference generate SEED LINES [BOXES ENGINES]    prints a script
  reference stats N [FIRST_SEED] [LINES]           checks N scripts and says what happened in them
  reference compare PROGRAM N [FIRST_SEED] [LINES] compares PROGRAM with this on N scripts
  reference replay FILE NUMBER ENGINES BOXES       shows what a box's file stands for
  reference box NUMBER ENGINES [BOXES]             runs a box, its file in this folder
  reference box-single NUMBER ENGINES [BOXES]      the same with a sync for each line
  reference compare-box PROGRAM N [FIRST_SEED] [LINES]
                                                   compares PROGRAM with this as a box
  reference compare-cuts PROGRAM FILE NUMBER ENGINES BOXES
                                                   the same on FILE cut and changed at every byte
  reference bench-handle KIND N                    handles one message N times; KIND is call, repeat,
                                                   which, change, waits, heard or second";

/// Lines of a generated script, where it isn't said.
const LINES: usize = 400;

/// What a subcommand ends with: nothing more, or what is wrong.
type Done = Result<(), String>;

fn main() -> ExitCode {
    let arguments: Vec<String> = std::env::args().skip(1).collect();
    let words: Vec<&str> = arguments.iter().map(String::as_str).collect();
    match run(&words) {
        Ok(()) => ExitCode::SUCCESS,
        Err(wrong) => {
            eprintln!("{wrong}");
            ExitCode::FAILURE
        }
    }
}

fn run(words: &[&str]) -> Done {
    match *words {
        ["rehearse"] => rehearse().map_err(|error| error.to_string()),
        ["check"] => check(),
        ["generate", seed, lines] => print_script(seed, lines, None),
        ["generate", seed, lines, boxes, engines] => {
            let size = YardSize::new(number(boxes)?, number(engines)?);
            print_script(seed, lines, Some(size.ok_or(USAGE)?))
        }
        ["stats", count, ref rest @ ..] => print_lines(statistics(scripts(count, rest)?)?),
        ["compare", program, count, ref rest @ ..] => {
            print_lines(vec![compare(program, scripts(count, rest)?)?])
        }
        ["replay", file, ref which @ ..] => replay(file, which),
        ["box", ref which @ ..] => run_box(which, Grouping::Together),
        ["box-single", ref which @ ..] => run_box(which, Grouping::Single),
        ["compare-box", program, count, ref rest @ ..] => {
            print_lines(vec![compare_box(program, scripts(count, rest)?)?])
        }
        ["compare-cuts", program, file, ref which @ ..] => {
            print_lines(vec![compare_cuts(program, parse_which(which)?, &read_file(file)?)?])
        }
        ["bench-handle", kind, times] => {
            let kind = Kind::from_word(kind).ok_or(USAGE)?;
            let (records, said) = bench(kind, number(times)?);
            print_lines(vec![format!("{records} records, {said} said")])
        }
        _ => Err(USAGE.to_string()),
    }
}

fn number<T: std::str::FromStr>(text: &str) -> Result<T, String> {
    parse_number(text).ok_or(USAGE.to_string())
}

/// `NUMBER ENGINES [BOXES]`.
fn parse_which(words: &[&str]) -> Result<Which, String> {
    let (box_number, engines, boxes) = match *words {
        [box_number, engines] => (box_number, engines, MAX_BOXES),
        [box_number, engines, boxes] => (box_number, engines, number(boxes)?),
        _ => return Err(USAGE.to_string()),
    };
    let size = YardSize::new(boxes, number(engines)?).ok_or(USAGE)?;
    let number = size.box_number(number(box_number)?).ok_or(USAGE)?;
    Ok(Which { number, size })
}

fn read_file(path: &str) -> Result<Vec<u8>, String> {
    fs::read(path).map_err(|error| format!("{path}: {error}"))
}

fn replay(file: &str, words: &[&str]) -> Done {
    let Which { number, size } = parse_which(words)?;
    print_lines(replay_lines(number, size, &read_file(file)?)?)
}

fn run_box(words: &[&str], grouping: Grouping) -> Done {
    let Which { number, size } =
        parse_which(words).map_err(|_| "usage: reference box NUMBER ENGINES [BOXES]")?;
    let folder = std::env::current_dir().map_err(|error| error.to_string())?;
    let (input, output) = (io::stdin().lock(), io::stdout().lock());
    program::run(number, size, &folder, grouping, input, output).map_err(|fault| fault.to_string())
}

/// `N [FIRST_SEED] [LINES]`.
fn scripts(count: &str, rest: &[&str]) -> Result<Scripts, String> {
    let (first_seed, lines) = match *rest {
        [] => (1, LINES),
        [first_seed] => (number(first_seed)?, LINES),
        [first_seed, lines] => (number(first_seed)?, number(lines)?),
        _ => return Err(USAGE.to_string()),
    };
    Ok(Scripts { count: number(count)?, first_seed, lines })
}

/// Plays the script on standard input.
fn rehearse() -> io::Result<()> {
    let mut player = Player::default();
    let mut out = BufWriter::new(io::stdout().lock());
    for line in io::stdin().lock().split(b'\n') {
        for event in player.play(&String::from_utf8_lossy(&line?)) {
            writeln!(out, "{event}")?;
        }
    }
    out.flush()
}

/// Plays and checks the script on standard input, silently.
fn check() -> Done {
    let mut script = Vec::new();
    io::stdin().lock().read_to_end(&mut script).map_err(|error| error.to_string())?;
    check_script(String::from_utf8_lossy(&script).lines()).map(|_| ())
}

fn print_script(seed: &str, lines: &str, size: Option<YardSize>) -> Done {
    print_lines(generate(number(seed)?, number(lines)?, size))
}

fn print_lines(lines: Vec<String>) -> Done {
    let mut out = BufWriter::new(io::stdout().lock());
    let written = lines.iter().try_for_each(|line| writeln!(out, "{line}"));
    written.and_then(|()| out.flush()).map_err(|error| error.to_string())
}
