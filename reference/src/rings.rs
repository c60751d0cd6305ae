//! Who waits for whom, seen with the keepers' eyes alone, and the rings (deadlock cycles) in it.

use crate::keeper::Keeper;
use crate::numbers::{BoxNumber, Engine, Section, YardSize};

/// An engine stands in the queue of a section, and the holder has that.
#[derive(Clone, Copy, PartialEq, Eq, Debug)]
pub struct Edge {
    pub section: Section,
    pub holder: Engine,
}

/// For each engine where it waits.
#[derive(Clone, PartialEq, Eq, Debug)]
pub struct WaitsSeen {
    edges: Vec<Option<Edge>>,
}

impl WaitsSeen {
    /// Nobody waits.
    pub fn none(size: YardSize) -> WaitsSeen {
        WaitsSeen { edges: vec![None; size.engine_count()] }
    }

    /// Looks at all queues; says what is wrong if somebody waits twice, for itself or for nobody.
    pub fn observe<'a>(
        size: YardSize,
        keepers: impl Iterator<Item = (BoxNumber, &'a Keeper)>,
    ) -> Result<WaitsSeen, String> {
        let mut seen = WaitsSeen::none(size);
        for (owner, keeper) in keepers {
            for (place, state) in (0u8..).zip(keeper.sections()) {
                let section = Section { owner, place };
                for &engine in &state.queue {
                    seen.add(engine, section, state.holder)?;
                }
            }
        }
        Ok(seen)
    }

    fn add(
        &mut self,
        engine: Engine,
        section: Section,
        holder: Option<Engine>,
    ) -> Result<(), String> {
        let Some(holder) = holder else {
            return Err(format!("engine {engine} waits for {section}, which nobody has"));
        };
        if holder == engine {
            return Err(format!("engine {engine} waits for {section}, which it has"));
        }
        match self.edges[engine.index()].replace(Edge { section, holder }) {
            None => Ok(()),
            Some(other) => {
                Err(format!("engine {engine} waits for {section} and {}", other.section))
            }
        }
    }

    pub fn edge(&self, engine: Engine) -> Option<Edge> {
        self.edges[engine.index()]
    }

    /// The ring that the engine is in, from it on along waits.
    pub fn ring_of(&self, engine: Engine) -> Option<Vec<Engine>> {
        let mut ring = vec![engine];
        loop {
            let next = self.edge(*ring.last()?)?.holder;
            if next == engine {
                return Some(ring);
            }
            if ring.contains(&next) {
                return None;
            }
            ring.push(next);
        }
    }

    /// All rings, each from its lowest engine on.
    pub fn rings(&self) -> Vec<Vec<Engine>> {
        let engines = (0..self.edges.len() as u8).map(Engine);
        let from_lowest = |ring: &Vec<Engine>| ring.iter().all(|engine| *engine >= ring[0]);
        engines.filter_map(|engine| self.ring_of(engine)).filter(from_lowest).collect()
    }

    /// Whether each of these waits here just as there.
    pub fn agrees(&self, other: &WaitsSeen, engines: &[Engine]) -> bool {
        engines.iter().all(|&engine| self.edge(engine) == other.edge(engine))
    }
}

#[cfg(test)]
mod tests {
    use super::*;

    fn waits(pairs: &[(u8, u8)]) -> WaitsSeen {
        let size = YardSize::new(1, 6).unwrap();
        let mut seen = WaitsSeen::none(size);
        for &(engine, holder) in pairs {
            let section = Section { owner: BoxNumber(0), place: holder };
            seen.add(Engine(engine), section, Some(Engine(holder))).unwrap();
        }
        seen
    }

    #[test]
    fn rings_are_found_and_tails_are_not() {
        let seen = waits(&[(2, 1), (1, 3), (3, 2), (0, 1), (4, 5)]);
        assert_eq!(seen.rings(), [[Engine(1), Engine(3), Engine(2)]]);
        assert_eq!(seen.ring_of(Engine(0)), None);
        assert_eq!(seen.ring_of(Engine(4)), None);
        assert_eq!(seen.ring_of(Engine(3)), Some(vec![Engine(3), Engine(2), Engine(1)]));
    }
}
