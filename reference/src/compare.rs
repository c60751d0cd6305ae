//! Runs another program on generated scripts, beside this one.

use crate::check::{check_script, Statistics};
use crate::generate::generate;
use crate::numbers::Refusal;
use std::io::{self, Read, Write};
use std::process::{Command, Stdio};

/// Which scripts: seeds from the first on, each of so many lines.
#[derive(Clone, Copy, Debug)]
pub struct Scripts {
    pub count: u64,
    pub first_seed: u64,
    pub lines: usize,
}

impl Scripts {
    pub fn seeds(self) -> std::ops::Range<u64> {
        self.first_seed..self.first_seed + self.count
    }
}

/// Compares a program's output with this one's on every script, and checks each; a line that sums up.
pub fn compare(program: &str, scripts: Scripts) -> Result<String, String> {
    let mut total = Statistics::default();
    for seed in scripts.seeds() {
        let script = generate(seed, scripts.lines, None);
        let checked = check_script(script.iter().map(String::as_str));
        let checked = checked.map_err(|wrong| format!("seed {seed}: {wrong}"))?;
        let theirs =
            run(program, &script).map_err(|error| format!("seed {seed}: {program}: {error}"))?;
        if let Some(difference) = difference(&script, &checked.output, &theirs) {
            return Err(format!("seed {seed}: {difference}"));
        }
        total.add(&checked.statistics);
    }
    let Statistics { lines, tellings, .. } = total;
    Ok(format!("compare: {} scripts, {lines} lines, {tellings} tellings: same", scripts.count))
}

/// The program's standard output for a script on its standard input.
fn run(program: &str, script: &[String]) -> io::Result<String> {
    let mut child = Command::new(program).stdin(Stdio::piped()).stdout(Stdio::piped()).spawn()?;
    let mut text = script.join("\n");
    text.push('\n');
    let mut stdin = child.stdin.take().expect("it is piped");
    let writer = std::thread::spawn(move || stdin.write_all(text.as_bytes()));
    let mut output = Vec::new();
    child.stdout.take().expect("it is piped").read_to_end(&mut output)?;
    let status = child.wait()?;
    writer.join().expect("writing doesn't panic")?;
    if !status.success() {
        return Err(io::Error::other(format!("{status}")));
    }
    Ok(String::from_utf8_lossy(&output).into_owned())
}

/// The first line in which the two differ.
fn difference(script: &[String], ours: &[(usize, String)], theirs: &str) -> Option<String> {
    let mut ours = ours.iter();
    let mut theirs = theirs.lines();
    let mut at = 0;
    loop {
        let (our, their) = (ours.next(), theirs.next());
        at = our.map_or(at, |(line, _)| *line);
        let our = our.map(|(_, text)| text.as_str());
        if our != their {
            let input = at.checked_sub(1).and_then(|index| script.get(index));
            let input = input.map_or("", String::as_str);
            let (our, their) = (our.unwrap_or("(no more)"), their.unwrap_or("(no more)"));
            return Some(format!("line {at}: {input}\n  reference: {our}\n  program:   {their}"));
        }
        our?;
    }
}

/// Plays and checks the scripts; what happened in them, in lines.
pub fn statistics(scripts: Scripts) -> Result<Vec<String>, String> {
    let mut total = Statistics::default();
    let mut with_telling = 0;
    for seed in scripts.seeds() {
        let script = generate(seed, scripts.lines, None);
        let checked = check_script(script.iter().map(String::as_str));
        let checked = checked.map_err(|wrong| format!("seed {seed}: {wrong}"))?;
        with_telling += usize::from(checked.statistics.tellings > 0);
        total.add(&checked.statistics);
    }
    let mut lines = vec![
        format!("scripts {} of {} lines each", scripts.count, scripts.lines),
        format!("messages {}, stops {}, had {}", total.messages, total.stops, total.hads),
        format!("rings {}, longest {}", total.rings, total.longest_ring),
        format!("tellings {}, in {with_telling} scripts", total.tellings),
        format!("calls refused by a keeper {}", total.refused_calls),
    ];
    lines.extend(Refusal::ALL.map(|refusal| {
        let number = usize::from(refusal.number());
        let (lines, messages) = (total.refused_lines[number], total.refused_messages[number]);
        format!("refused {refusal}: lines {lines}, messages {messages}")
    }));
    Ok(lines)
}
