//! The finders that are measured, behind one interface.
//!
//! All answer in the words of include/finder.h, so that their answers can be
//! compared, and what uses them need not know which one it has.

use compare::words::{self, Words};
use finder::Record;
use plain::desk::LIST_LENGTH;
use plain::dual::LONGEST_DUAL;
use plain::model::LONGEST_MODEL;
use plain::{read_papers, rest_of_paper, Held};

use crate::files::Papers;
use crate::other::Other;

/// What is lent to a call, as long as any call wants it.
#[derive(Clone, Debug, PartialEq, Eq)]
pub struct Buffers {
    pub dual: Vec<u8>,
    pub model: Vec<u8>,
    pub list: Vec<u32>,
}

impl Buffers {
    pub fn new() -> Self {
        Buffers {
            dual: vec![0; LONGEST_DUAL],
            model: vec![0; LONGEST_MODEL],
            list: vec![0; LIST_LENGTH],
        }
    }
}

pub trait Finder: Sync {
    /// What its column is headed with.
    fn name(&self) -> &'static str;

    fn rest(&self, papers: &Papers) -> Words;

    fn write_dual(&self, papers: &Papers, buffers: &mut Buffers) -> Words;

    fn judge(&self, papers: &Papers, scenario: u32, buffers: &mut Buffers) -> Words;

    /// Whether a search may hold faults.
    fn holds_faults(&self) -> bool {
        true
    }

    /// Whether it tells scenarios with a byte 3 as explanations, as builds from
    /// before Card 3 do: its verdicts and finds are not those of the others.
    fn tells_contradictions(&self) -> bool {
        false
    }

    fn fresh(&self, papers: &Papers, held: Held) -> Words;

    fn continue_search(
        &self,
        papers: &Papers,
        record: Record,
        allowance: u32,
        buffers: &mut Buffers,
    ) -> Words;

    /// Whether it is so slow that it is left out of long work.
    fn is_slow(&self) -> bool {
        false
    }
}

/// The library that this program is linked with.
pub struct Linked;

impl Finder for Linked {
    fn name(&self) -> &'static str {
        "library"
    }

    fn rest(&self, papers: &Papers) -> Words {
        let mut out = Words::default();
        finder::rest_words(&papers.file, &papers.sheet, &mut out);
        out
    }

    fn write_dual(&self, papers: &Papers, buffers: &mut Buffers) -> Words {
        let mut out = Words::default();
        finder::write_dual_words(&papers.file, &mut buffers.dual, &mut out);
        out
    }

    fn judge(&self, papers: &Papers, scenario: u32, buffers: &mut Buffers) -> Words {
        let Papers { file, sheet, .. } = papers;
        let Buffers { dual, model, .. } = buffers;
        let mut out = Words::default();
        finder::judge_words(file, sheet, scenario, dual, model, &mut out);
        out
    }

    fn fresh(&self, papers: &Papers, held: Held) -> Words {
        let mut out = Words::default();
        finder::fresh_words(&papers.file, held.assumed, held.ruled, &mut out);
        out
    }

    fn continue_search(
        &self,
        papers: &Papers,
        record: Record,
        allowance: u32,
        buffers: &mut Buffers,
    ) -> Words {
        let Papers { file, sheet, .. } = papers;
        let Buffers { dual, list, .. } = buffers;
        let mut out = Words::default();
        finder::continue_words(file, sheet, dual, list, record, allowance, &mut out);
        out
    }
}

/// The separate finder.
pub struct Plain;

impl Finder for Plain {
    fn name(&self) -> &'static str {
        "plain"
    }

    fn rest(&self, papers: &Papers) -> Words {
        let Papers { file, sheet, .. } = papers;
        words::of_reading(&read_papers(file, sheet), rest_of_paper(file, sheet))
    }

    fn write_dual(&self, papers: &Papers, buffers: &mut Buffers) -> Words {
        words::of_writing(&plain::write_dual(&papers.file, &mut buffers.dual))
    }

    fn judge(&self, papers: &Papers, scenario: u32, buffers: &mut Buffers) -> Words {
        let Papers { file, sheet, .. } = papers;
        let Buffers { dual, model, .. } = buffers;
        words::of_judging(&plain::judge(file, sheet, scenario, dual, model))
    }

    fn fresh(&self, papers: &Papers, held: Held) -> Words {
        words::of_fresh(&plain::fresh(&papers.file, held.assumed, held.ruled))
    }

    fn continue_search(
        &self,
        papers: &Papers,
        record: Record,
        allowance: u32,
        buffers: &mut Buffers,
    ) -> Words {
        let Papers { file, sheet, .. } = papers;
        let Buffers { dual, list, .. } = buffers;
        let Record {
            position,
            found,
            assumed,
            ruled,
        } = record;
        let given = plain::Record {
            position,
            found,
            assumed,
            ruled,
        };
        let answer = plain::continue_search(file, sheet, dual, list, given, allowance);
        words::of_continuing(&answer, given)
    }

    fn is_slow(&self) -> bool {
        true
    }
}

/// The finders of this run. The linked library is the first of any.
pub struct Finders {
    pub other: Option<Other>,
}

impl Finders {
    /// The linked library, and the other where there is one.
    pub fn libraries(&self) -> Vec<&dyn Finder> {
        let other = self.other.iter().map(|other| other as &dyn Finder);
        [&Linked as &dyn Finder].into_iter().chain(other).collect()
    }

    /// Those, and plain behind the first.
    pub fn all(&self) -> Vec<&dyn Finder> {
        let mut all = self.libraries();
        all.insert(1, &Plain);
        all
    }
}

#[cfg(test)]
mod tests {
    use super::*;
    use crate::files::seeded::SMALL;
    use crate::measuring::Agreed;

    #[test]
    fn all_finders_give_the_same_to_each_call() {
        let papers = SMALL.papers();
        let held = Held {
            assumed: 0b1000,
            ruled: 0b100,
        };
        let record = Record {
            position: 100,
            found: 0,
            assumed: held.assumed,
            ruled: held.ruled,
        };
        let agreed = Agreed::new();
        for finder in (Finders { other: None }).all() {
            let mut buffers = Buffers::new();
            let words = [
                finder.rest(&papers),
                finder.write_dual(&papers, &mut buffers),
                finder.judge(&papers, 700, &mut buffers),
                finder.fresh(&papers, held),
                finder.continue_search(&papers, record, 300, &mut buffers),
            ];
            agreed.expect(&(words, buffers), finder);
        }
        let (words, _) = agreed.answer();
        assert!(words.iter().all(|words| words[0] == 0), "{words:?}");
        assert_eq!(words[4][3], 400, "the position behind those tried");
    }
}
