//! Scripts: lines in, lines out.

use crate::numbers::{Engine, Refusal, Section, YardSize};
use crate::yard::{Command, Event, Yard};

/// Most boxes, and most engines, of a yard that a script plays.
const MAX_OF_SCRIPT: u8 = 8;

/// A script's line.
#[derive(Clone, Copy, PartialEq, Eq, Debug)]
pub enum Line {
    /// Blank, or a comment.
    PassedOver,
    Yard(YardSize),
    Command(Command),
    Unreadable,
}

/// Reads lines one after another: before the yard is named, nothing else can be read.
#[derive(Default)]
pub struct LineReader {
    size: Option<YardSize>,
}

impl LineReader {
    pub fn read(&mut self, line: &str) -> Line {
        if line.starts_with('#') || line.trim().is_empty() {
            return Line::PassedOver;
        }
        let read = match self.size {
            Some(size) => parse_command(line, size).map(Line::Command),
            None => {
                self.size = parse_yard(line);
                self.size.map(Line::Yard)
            }
        };
        read.unwrap_or(Line::Unreadable)
    }
}

/// A decimal number: digits only.
pub fn parse_number<T: std::str::FromStr>(text: &str) -> Option<T> {
    let digits = !text.is_empty() && text.bytes().all(|byte| byte.is_ascii_digit());
    digits.then(|| text.parse().ok()).flatten()
}

fn parse_yard(line: &str) -> Option<YardSize> {
    let words: Vec<&str> = line.split(' ').collect();
    let ["yard", boxes, engines] = words[..] else {
        return None;
    };
    let (boxes, engines) = (parse_number(boxes)?, parse_number(engines)?);
    let fits = boxes <= MAX_OF_SCRIPT && engines <= MAX_OF_SCRIPT;
    YardSize::new(boxes, engines).filter(|_| fits)
}

fn parse_command(line: &str, size: YardSize) -> Option<Command> {
    let words: Vec<&str> = line.split(' ').collect();
    let command = match words[..] {
        ["take", engine, section] => {
            Command::Take(parse_engine(engine, size)?, parse_section(section, size)?)
        }
        ["free", engine, section] => {
            Command::Free(parse_engine(engine, size)?, parse_section(section, size)?)
        }
        ["second", number] => Command::Second(size.box_number(parse_number(number)?)?),
        ["deliver", message] => Command::Deliver(parse_number(message)?),
        ["cut", message, length] => Command::Cut(parse_number(message)?, parse_number(length)?),
        ["stop", number] => Command::Stop(size.box_number(parse_number(number)?)?),
        ["show"] => Command::Show,
        _ => return None,
    };
    Some(command)
}

pub fn parse_engine(text: &str, size: YardSize) -> Option<Engine> {
    size.engine(parse_number(text)?)
}

pub fn parse_section(text: &str, size: YardSize) -> Option<Section> {
    let (owner, place) = text.split_once(':')?;
    size.section(parse_number(owner)?, parse_number(place)?)
}

/// A command as a script's line.
pub fn command_line(command: Command) -> String {
    match command {
        Command::Take(engine, section) => format!("take {engine} {section}"),
        Command::Free(engine, section) => format!("free {engine} {section}"),
        Command::Second(number) => format!("second {number}"),
        Command::Deliver(message) => format!("deliver {message}"),
        Command::Cut(message, length) => format!("cut {message} {length}"),
        Command::Stop(number) => format!("stop {number}"),
        Command::Show => "show".to_string(),
    }
}

/// Plays a script line by line.
#[derive(Default)]
pub struct Player {
    reader: LineReader,
    yard: Option<Yard>,
}

impl Player {
    /// What comes of one line.
    pub fn play(&mut self, line: &str) -> Vec<Event> {
        match (self.reader.read(line), &mut self.yard) {
            (Line::PassedOver, _) => Vec::new(),
            (Line::Yard(size), _) => {
                self.yard = Some(Yard::new(size));
                Vec::new()
            }
            (Line::Command(command), Some(yard)) => yard.play(command),
            (Line::Command(_), None) | (Line::Unreadable, _) => {
                vec![Event::Refused(Refusal::Invalid)]
            }
        }
    }
}

#[cfg(test)]
mod tests {
    use super::*;

    fn output(script: &str) -> Vec<String> {
        let mut player = Player::default();
        script.lines().flat_map(|line| player.play(line)).map(|event| event.to_string()).collect()
    }

    #[test]
    fn lines_that_cannot_be_read_are_refused() {
        let lines = [
            "yard 9 1",
            "take 0 0:0",
            "yard 2 3",
            "",
            "# a comment",
            "yard 2 3",
            "take 3 0:0",
            "take 0 2:0",
            "take 0 0:64",
            "take 0 0",
            "second 2",
            "stop 2",
            "deliver 1",
            "deliver x",
            "cut 1 0",
            "shows",
            "show 1",
        ];
        assert_eq!(output(&lines.join("\n")), ["refused 1"; 14]);
    }

    #[test]
    fn a_take_is_asked_answered_and_had() {
        let lines = ["yard 2 3", "take 1 0:5", "deliver 1", "cut 2 11", "deliver 2", "deliver 2"];
        let expected = [
            "1 1 0 0101000500000001",
            "2 0 1 040100000001010100000001",
            "refused 1",
            "had 1 0:5",
            "refused 2",
        ];
        assert_eq!(output(&lines.join("\n")), expected);
    }

    #[test]
    fn commands_read_back_from_their_lines() {
        let size = YardSize::new(2, 3).unwrap();
        let section = size.section(1, 63).unwrap();
        let commands = [
            Command::Take(Engine(2), section),
            Command::Free(Engine(0), section),
            Command::Second(size.box_number(1).unwrap()),
            Command::Deliver(12),
            Command::Cut(3, 4),
            Command::Stop(size.box_number(0).unwrap()),
            Command::Show,
        ];
        for command in commands {
            assert_eq!(parse_command(&command_line(command), size), Some(command));
        }
    }
}
