//! `carrier`: runs boxes as processes, connected by pipes with loss, doubling, delay and kill -9, and checks them.

mod files;
mod processes;
mod run;

use processes::Starter;
use reference::compare_box::{compare_cuts, Which};
use reference::numbers::YardSize;
use reference::random::Random;
use reference::script::parse_number;
use run::Run;
use std::fs;
use std::path::PathBuf;
use std::process::ExitCode;

const USAGE: &str = "usage:
  carrier PROGRAM FIRST_SEED RUNS TICKS [BOXES ENGINES]  runs boxes, and checks them
  carrier cuts PROGRAM SEED TICKS                        cuts a file of such a run at every byte
PROGRAM is a box's program; it may have first arguments of its own, after blanks";

/// How much of a run's file is cut at every byte.
const CUT_BYTES: usize = 2500;

fn main() -> ExitCode {
    let arguments: Vec<String> = std::env::args().skip(1).collect();
    let words: Vec<&str> = arguments.iter().map(String::as_str).collect();
    match runs(&words) {
        Ok(()) => ExitCode::SUCCESS,
        Err(wrong) => {
            eprintln!("{wrong}");
            ExitCode::FAILURE
        }
    }
}

fn number<T: std::str::FromStr>(text: &str) -> Result<T, String> {
    parse_number(text).ok_or(USAGE.to_string())
}

fn runs(words: &[&str]) -> Result<(), String> {
    let (program, first_seed, count, ticks, size) = match *words {
        ["cuts", program, seed, ticks] => return cuts(program, number(seed)?, number(ticks)?),
        [program, first_seed, count, ticks] => (program, first_seed, count, ticks, None),
        [program, first_seed, count, ticks, boxes, engines] => {
            let size = YardSize::new(number(boxes)?, number(engines)?).ok_or(USAGE)?;
            (program, first_seed, count, ticks, Some(size))
        }
        _ => return Err(USAGE.to_string()),
    };
    let (first_seed, count, ticks): (u64, u64, usize) =
        (number(first_seed)?, number(count)?, number(ticks)?);
    for seed in first_seed..first_seed + count {
        let root = one_run(program, seed, ticks, size.unwrap_or_else(|| random_size(seed)))?;
        fs::remove_dir_all(&root).map_err(|error| error.to_string())?;
    }
    Ok(())
}

/// Compares how PROGRAM and the reference open a file of a run, cut and changed at every byte.
fn cuts(program: &str, seed: u64, ticks: usize) -> Result<(), String> {
    let size = random_size(seed);
    let root = one_run(program, seed, ticks, size)?;
    for number in size.boxes().take(2) {
        let file = fs::read(root.join(number.to_string()).join("yard"));
        let mut file = file.map_err(|error| error.to_string())?;
        file.truncate(CUT_BYTES);
        println!("{}", compare_cuts(program, Which { number, size }, &file)?);
    }
    fs::remove_dir_all(&root).map_err(|error| error.to_string())
}

fn random_size(seed: u64) -> YardSize {
    let mut random = Random::new(!seed);
    let (boxes, engines) = (random.between(2, 5) as u8, random.between(3, 8) as u8);
    YardSize::new(boxes, engines).expect("within the limits")
}

/// One run in a folder of its own, which is left there.
fn one_run(program: &str, seed: u64, ticks: usize, size: YardSize) -> Result<PathBuf, String> {
    let starter = Starter::new(program).map_err(|error| format!("{program}: {error}"))?;
    let root = std::env::temp_dir().join(format!("carrier-{}-{seed}", std::process::id()));
    let counts = Run::start(&starter, seed, size, &root)?.play(ticks).map_err(|wrong| {
        format!("carrier: seed {seed}: {wrong}; files are in {}", root.display())
    })?;
    let (boxes, engines) = (size.box_count(), size.engine_count());
    println!("carrier: seed {seed}, {boxes} boxes, {engines} engines: {counts}: ok");
    Ok(root)
}
