//! The numbers of the yard: engines, boxes, sections, how many of each, and refusals.

use std::fmt;

/// Most boxes of a yard.
pub const MAX_BOXES: u8 = 16;
/// Sections of every box.
pub const PLACES: u8 = 64;
/// Most engines of a yard.
pub const MAX_ENGINES: u8 = 64;

/// An engine, by its number.
#[derive(Clone, Copy, PartialEq, Eq, PartialOrd, Ord, Hash, Debug)]
pub struct Engine(pub u8);

/// A signal box, by its number.
#[derive(Clone, Copy, PartialEq, Eq, PartialOrd, Ord, Hash, Debug)]
pub struct BoxNumber(pub u8);

/// A section: the box it belongs to, and its place there.
#[derive(Clone, Copy, PartialEq, Eq, PartialOrd, Ord, Hash, Debug)]
pub struct Section {
    pub owner: BoxNumber,
    pub place: u8,
}

/// How many boxes and engines a yard has.
#[derive(Clone, Copy, PartialEq, Eq, Debug)]
pub struct YardSize {
    boxes: u8,
    engines: u8,
}

impl YardSize {
    /// A size within the limits of the protocol.
    pub fn new(boxes: u8, engines: u8) -> Option<YardSize> {
        let fits = (1..=MAX_BOXES).contains(&boxes) && (1..=MAX_ENGINES).contains(&engines);
        fits.then_some(YardSize { boxes, engines })
    }

    /// The box at which an engine is at home.
    pub fn home(self, engine: Engine) -> BoxNumber {
        BoxNumber(engine.0 % self.boxes)
    }

    pub fn engine(self, number: u8) -> Option<Engine> {
        (number < self.engines).then_some(Engine(number))
    }

    pub fn box_number(self, number: u8) -> Option<BoxNumber> {
        (number < self.boxes).then_some(BoxNumber(number))
    }

    pub fn section(self, owner: u8, place: u8) -> Option<Section> {
        let owner = self.box_number(owner)?;
        (place < PLACES).then_some(Section { owner, place })
    }

    pub fn engines(self) -> impl Iterator<Item = Engine> {
        (0..self.engines).map(Engine)
    }

    pub fn boxes(self) -> impl Iterator<Item = BoxNumber> {
        (0..self.boxes).map(BoxNumber)
    }

    pub fn engine_count(self) -> usize {
        usize::from(self.engines)
    }

    pub fn box_count(self) -> usize {
        usize::from(self.boxes)
    }
}

impl Engine {
    pub fn index(self) -> usize {
        usize::from(self.0)
    }
}

impl BoxNumber {
    pub fn index(self) -> usize {
        usize::from(self.0)
    }
}

impl Section {
    pub fn place_index(self) -> usize {
        usize::from(self.place)
    }
}

impl fmt::Display for Engine {
    fn fmt(&self, f: &mut fmt::Formatter) -> fmt::Result {
        write!(f, "{}", self.0)
    }
}

impl fmt::Display for BoxNumber {
    fn fmt(&self, f: &mut fmt::Formatter) -> fmt::Result {
        write!(f, "{}", self.0)
    }
}

impl fmt::Display for Section {
    fn fmt(&self, f: &mut fmt::Formatter) -> fmt::Result {
        write!(f, "{}:{}", self.owner, self.place)
    }
}

/// Why an input was turned away.
#[derive(Clone, Copy, PartialEq, Eq, PartialOrd, Ord, Debug)]
pub enum Refusal {
    /// It can't be read, a number is out of range, or the sender is wrong.
    Invalid = 1,
    /// A call number, an answer, or a line that isn't due now.
    OutOfTurn = 2,
    /// The engine waits.
    Waiting = 3,
    /// The engine has the section, hasn't it, or doesn't wait for it.
    Possession = 4,
    /// Another count, or for another engine.
    Stale = 6,
    /// A number would pass its bytes.
    Limit = 7,
}

impl Refusal {
    pub const ALL: [Refusal; 6] = [
        Refusal::Invalid,
        Refusal::OutOfTurn,
        Refusal::Waiting,
        Refusal::Possession,
        Refusal::Stale,
        Refusal::Limit,
    ];

    /// The number that stands for it in messages and lines.
    pub fn number(self) -> u8 {
        self as u8
    }
}

impl fmt::Display for Refusal {
    fn fmt(&self, f: &mut fmt::Formatter) -> fmt::Result {
        write!(f, "{}", self.number())
    }
}
