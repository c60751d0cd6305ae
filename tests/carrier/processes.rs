//! Boxes as processes: lines go in by a pipe, and come out by one channel for all.

use reference::numbers::{BoxNumber, YardSize};
use std::io::{self, BufRead, BufReader, Write};
use std::path::{Path, PathBuf};
use std::process::{Child, ChildStdin, ChildStdout, Command, Stdio};
use std::sync::mpsc::Sender;
use std::thread::{self, JoinHandle};

/// A line that a box said.
pub struct SaidLine {
    pub from: BoxNumber,
    pub text: String,
}

/// How a box is started: a program, and first arguments of its own.
#[derive(Clone)]
pub struct Starter {
    path: PathBuf,
    arguments: Vec<String>,
}

impl Starter {
    /// A program's path, and arguments after blanks.
    pub fn new(program: &str) -> io::Result<Starter> {
        let mut words = program.split(' ');
        let path = std::fs::canonicalize(words.next().unwrap_or_default())?;
        Ok(Starter { path, arguments: words.map(str::to_string).collect() })
    }

    fn start(&self, number: BoxNumber, size: YardSize, folder: &Path) -> io::Result<Child> {
        let numbers = [number.index(), size.engine_count(), size.box_count()];
        Command::new(&self.path)
            .args(&self.arguments)
            .args(numbers.map(|number| number.to_string()))
            .current_dir(folder)
            .stdin(Stdio::piped())
            .stdout(Stdio::piped())
            .spawn()
    }
}

/// A box that runs as a process.
pub struct Process {
    child: Child,
    stdin: ChildStdin,
    reader: JoinHandle<()>,
}

impl Process {
    pub fn start(
        starter: &Starter,
        number: BoxNumber,
        size: YardSize,
        folder: &Path,
        said: Sender<SaidLine>,
    ) -> io::Result<Process> {
        let mut child = starter.start(number, size, folder)?;
        let stdin = child.stdin.take().expect("it is piped");
        let stdout = child.stdout.take().expect("it is piped");
        let reader = thread::spawn(move || pass_on(number, stdout, &said));
        Ok(Process { child, stdin, reader })
    }

    /// Gives the box a line; a box that has ended doesn't hear it.
    pub fn tell(&mut self, line: &str) {
        let _ = self.stdin.write_all(format!("{line}\n").as_bytes());
    }

    /// Whether it ended by itself.
    pub fn has_ended(&mut self) -> bool {
        !matches!(self.child.try_wait(), Ok(None))
    }

    /// Kills it where it stands; what it had said is passed on first.
    pub fn kill(mut self) -> io::Result<()> {
        self.child.kill()?;
        self.child.wait()?;
        self.reader.join().expect("the reader doesn't panic");
        Ok(())
    }

    /// Lets it end by the end of its input; whether it ended well.
    pub fn end(mut self) -> io::Result<bool> {
        drop(self.stdin);
        let status = self.child.wait()?;
        self.reader.join().expect("the reader doesn't panic");
        Ok(status.success())
    }
}

/// Passes on whole lines; the last one of a killed box may be cut.
fn pass_on(from: BoxNumber, stdout: ChildStdout, said: &Sender<SaidLine>) {
    let mut lines = BufReader::new(stdout);
    loop {
        let mut text = String::new();
        let whole = lines.read_line(&mut text).is_ok() && text.ends_with('\n');
        let passed =
            whole && said.send(SaidLine { from, text: text.trim_end().to_string() }).is_ok();
        if !passed {
            return;
        }
    }
}
