//! The boxes' files, read while the boxes run: what they stand for is what the carrier checks against.

use reference::codec::{Call, CallKind, NextRecord, Record};
use reference::home::{LastClaim, Mode, Stored};
use reference::numbers::{BoxNumber, Engine, Section, YardSize};
use reference::rings::WaitsSeen;
use reference::signal_box::SignalBox;
use std::fs;
use std::path::{Path, PathBuf};

/// The folder of a run: one folder for each box in it, with its file.
pub struct Files {
    root: PathBuf,
    size: YardSize,
}

/// What was seen of a telling.
#[derive(Clone, Copy, PartialEq, Eq, Debug)]
pub enum TellingSeen {
    /// The one told was in a ring, the highest, and alone.
    Right,
    /// The engine's driver has gone on since, so the ring can't be seen any more.
    Late,
}

impl Files {
    /// Makes an empty folder for each box.
    pub fn create(root: &Path, size: YardSize) -> std::io::Result<Files> {
        let files = Files { root: root.to_path_buf(), size };
        for number in size.boxes() {
            fs::create_dir_all(files.folder(number))?;
        }
        Ok(files)
    }

    pub fn folder(&self, number: BoxNumber) -> PathBuf {
        self.root.join(number.to_string())
    }

    fn read(&self, number: BoxNumber) -> Vec<u8> {
        fs::read(self.folder(number).join("yard")).unwrap_or_default()
    }

    /// The whole records of a file, each with the byte at which it begins.
    fn records(&self, bytes: &[u8]) -> Vec<(usize, Record)> {
        let mut records = Vec::new();
        let mut at = 0;
        while let NextRecord::Whole(record, length) = Record::read(&bytes[at..], self.size) {
            records.push((at, record));
            at += length;
        }
        records
    }

    /// The box that its file stands for now.
    pub fn open(&self, number: BoxNumber) -> Result<SignalBox, String> {
        self.replay(number, &self.read(number))
    }

    fn replay(&self, number: BoxNumber, bytes: &[u8]) -> Result<SignalBox, String> {
        let opened = SignalBox::open(number, self.size, bytes);
        let opened =
            opened.map_err(|damage| format!("box {number}: damage at byte {}", damage.at))?;
        Ok(opened.signal_box)
    }

    /// What is stored of an engine.
    pub fn stored(&self, engine: Engine) -> Result<Stored, String> {
        let home = self.open(self.size.home(engine))?;
        let state = home.home().engine(engine).ok_or("an engine isn't at its home")?;
        Ok(state.stored.clone())
    }

    /// The engine's last call, as its home recorded it, that fits.
    pub fn last_call(&self, engine: Engine, fits: impl Fn(&Call) -> bool) -> Option<Call> {
        let records = self.records(&self.read(self.size.home(engine)));
        records.iter().rev().find_map(|(_, record)| match record {
            Record::HomeCall(call) if call.engine == engine && fits(call) => Some(*call),
            _ => None,
        })
    }

    /// The number of the take by which the engine may have the section; none if it called for it otherwise since.
    pub fn take_number(&self, engine: Engine, section: Section) -> Option<u32> {
        let call = self.last_call(engine, |call| call.section == section)?;
        (call.kind == CallKind::Take).then_some(call.number)
    }

    pub fn holder(&self, section: Section) -> Result<Option<Engine>, String> {
        Ok(self.open(section.owner)?.keeper().section(section).holder)
    }

    /// Who waits for whom by the keepers' files; the box of `given_up` as it was before that call.
    pub fn waits(&self, given_up: Option<Call>) -> Result<WaitsSeen, String> {
        let boxes = self.size.boxes().map(|number| {
            let mut bytes = self.read(number);
            let given_up = given_up.map(Record::KeeperCall);
            let found =
                self.records(&bytes).into_iter().find(|(_, record)| Some(*record) == given_up);
            if let Some((at, _)) = found {
                bytes.truncate(at);
            }
            self.replay(number, &bytes)
        });
        let boxes: Vec<SignalBox> = boxes.collect::<Result<_, _>>()?;
        WaitsSeen::observe(self.size, boxes.iter().map(|it| (it.number(), it.keeper())))
    }

    /// Checks that the engine, told to give back, is in a ring, the highest of it, and told alone.
    pub fn check_telling(&self, engine: Engine) -> Result<TellingSeen, String> {
        let last_call = || self.last_call(engine, |_| true);
        let Some(given_up) = last_call().filter(|call| call.kind == CallKind::GiveUp) else {
            return Ok(TellingSeen::Late);
        };
        let checked = self.check_ring(engine, given_up);
        if last_call() != Some(given_up) {
            return Ok(TellingSeen::Late);
        }
        checked.map(|()| TellingSeen::Right)
    }

    fn check_ring(&self, engine: Engine, given_up: Call) -> Result<(), String> {
        let waits = self.waits(Some(given_up))?;
        let Some(ring) = waits.ring_of(engine) else {
            return Err(format!("engine {engine} is told and is in no ring"));
        };
        let own = self.stored(engine)?.own;
        for &other in ring.iter().skip(1) {
            let stored = self.stored(other)?;
            if stored.own > own {
                return Err(format!("engine {engine} is told, and {other} has a higher own sign"));
            }
            if matches!(stored.mode, Mode::Calling(Call { kind: CallKind::GiveUp, .. })) {
                return Err(format!(
                    "engine {engine} is told, and {other} of its ring was already"
                ));
            }
        }
        Ok(())
    }

    /// What is still to come, by the files alone.
    pub fn unsettled(&self) -> Result<Option<String>, String> {
        let waits = self.waits(None)?;
        if let Some(ring) = waits.rings().first() {
            return Ok(Some(format!("the ring {ring:?} stands")));
        }
        for engine in self.size.engines() {
            let stored = self.stored(engine)?;
            if stored.last_claim == LastClaim::GiveUp && !stored.kept.is_empty() {
                return Ok(Some(format!("engine {engine} is still giving back")));
            }
            let seen = waits.edge(engine).map(|edge| (edge.section, edge.holder));
            let known = match stored.mode {
                Mode::Waiting(wait) if self.holder(wait.section)? != Some(engine) => {
                    Some((wait.section, wait.for_whom))
                }
                _ => None,
            };
            if seen != known {
                return Ok(Some(format!("engine {engine} and its keeper differ about its wait")));
            }
        }
        Ok(None)
    }
}
