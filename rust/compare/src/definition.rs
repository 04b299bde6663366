//! What the definition says of a fresh search: all its explanations first, then
//! the minimal ones, then where it stops.

use plain::{stopping_point, Continued, Held, Record};

use crate::searches::Papers;

/// What all calls of a search came to.
#[derive(Clone, Copy, Debug, Default, PartialEq, Eq)]
pub struct Sums {
    pub tried: u64,
    pub rounds: u64,
}

impl Sums {
    pub fn add(&mut self, continued: &Continued) {
        self.tried += u64::from(continued.tried);
        self.rounds += continued.rounds;
    }
}

pub struct Definition {
    pub held: Held,
    /// The minimal explanations of the search, rising.
    pub minimal: Vec<u32>,
    /// Those that the list has room for.
    pub found: Vec<u32>,
    pub stop: u32,
    sums: Sums,
}

impl Definition {
    /// Of a search that holds these faults over a list of such a length.
    pub fn new(papers: &mut Papers, held: Held, list_length: usize) -> Self {
        let minimal = papers.search.minimal_explanations(held);
        let stop = stopping_point(papers.search.program(), &minimal, list_length);
        let agreeing = (0..stop).filter(|&scenario| held.agrees(scenario));
        let rounds = agreeing.map(|scenario| papers.search.judgement(scenario).rounds);
        Definition {
            held,
            sums: Sums {
                tried: stop.into(),
                rounds: rounds.sum(),
            },
            found: minimal.iter().copied().take(list_length).collect(),
            minimal,
            stop,
        }
    }

    /// How a search that has come to its stopping point is not as it should be.
    pub fn complaint(&self, record: Record, sums: Sums, list: &[u32]) -> Option<String> {
        let Held { assumed, ruled } = self.held;
        let expected = Record {
            position: self.stop,
            found: self.found.len() as u32,
            assumed,
            ruled,
        };
        if record != expected {
            return Some(format!("{record:?}, and by definition {expected:?}"));
        }
        if sums != self.sums {
            return Some(format!("{sums:?}, and by definition {:?}", self.sums));
        }
        let entries = &list[..self.found.len()];
        let is_so = entries == self.found;
        (!is_so).then(|| format!("found {entries:?}, and by definition {:?}", self.found))
    }
}

#[cfg(test)]
mod tests {
    use super::*;
    use calls::searching::OF_NOT_P4;

    /// That of not p4 with a held as ruled out, with room for one entry: its
    /// models take 1, 2 and 2 rounds where a is ruled out.
    #[test]
    fn what_is_not_so_is_told() {
        let mut papers = Papers::of_call(&OF_NOT_P4);
        let held = Held {
            assumed: 0,
            ruled: 1,
        };
        let definition = Definition::new(&mut papers, held, 1);
        let record = |position, found| Record {
            position,
            found,
            assumed: 0,
            ruled: 1,
        };
        let sums = |tried, rounds| Sums { tried, rounds };
        let complaint = |record, sums, entry| definition.complaint(record, sums, &[entry]);
        assert_eq!(complaint(record(9, 1), sums(9, 5), 5), None);
        assert!(complaint(record(5, 1), sums(9, 5), 5).is_some());
        assert!(complaint(record(9, 0), sums(9, 5), 5).is_some());
        assert!(complaint(record(9, 1), sums(9, 15), 5).is_some());
        assert!(complaint(record(9, 1), sums(8, 5), 5).is_some());
        assert!(complaint(record(9, 1), sums(9, 5), 3).is_some());
    }
}
