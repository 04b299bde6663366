//! What all comparisons do: both finders get the same calls, and what they give
//! and what they leave in what they are lent must be the same.

use std::fmt;

use crate::lent::{Lent, Patterns};
use crate::run::Run;
use crate::tally::Counted;
use crate::words::Words;

/// A comparison under way.
pub struct Comparison {
    run: Run,
    /// How many calls were compared.
    pub calls: u64,
    pub patterns: Patterns,
}

impl Comparison {
    pub fn start(test: &'static str, subject: &str) -> Self {
        let run = Run::start(test, subject);
        Comparison {
            calls: 0,
            patterns: Patterns::new(!run.seed),
            run,
        }
    }

    /// What the papers and the calls are made from.
    pub fn seed(&self) -> u64 {
        self.run.seed
    }

    /// Counts a call, and fails where its words are not those that they should
    /// be.
    pub fn expect_words(&mut self, found: &Words, expected: &Words, call: &impl fmt::Display) {
        self.calls += 1;
        if found != expected {
            let what = format!("the finders differ\nplain  {expected:?}\nfinder {found:?}");
            self.fail(&what, call);
        }
    }

    /// Fails where what was lent as `name` in a call is not left as it should
    /// be.
    pub fn expect_items<T: Copy + fmt::Debug + PartialEq>(
        &self,
        name: &str,
        found: &Lent<T>,
        expected: &Lent<T>,
        call: &impl fmt::Display,
    ) {
        if let Some(difference) = found.difference(expected) {
            let what = format!("the finders differ in the {name} {difference}");
            self.fail(&what, call);
        }
    }

    pub fn fail(&self, what: &str, call: &impl fmt::Display) -> ! {
        let number = self.calls;
        self.run.fail(&format!("{what}\ncall {number}\n{call}"));
    }

    /// Says what was compared, prints the counts and passes where there is
    /// nothing to complain of.
    pub fn end(&self, compared: &str, counts: &[&dyn Counted]) {
        println!("{compared}, seed {}", self.run.seed);
        for counted in counts {
            print!("{counted}");
        }
        let complaints = counts.iter().flat_map(|counted| counted.complaints());
        self.run.end(&complaints.collect::<Vec<String>>());
    }
}

/// A call as a failure tells it.
pub struct Told<'c> {
    pub file: &'c [u8],
    /// Empty where the call has none.
    pub sheet: &'c [u8],
    /// What it was made with beside them.
    pub with: String,
}

impl fmt::Display for Told<'_> {
    fn fmt(&self, f: &mut fmt::Formatter) -> fmt::Result {
        for (name, paper) in [("file", self.file), ("sheet", self.sheet)] {
            write!(f, "{name:5} ")?;
            for byte in paper {
                write!(f, "{byte:02X}")?;
            }
            writeln!(f)?;
        }
        f.write_str(&self.with)
    }
}

/// A call with a text as a failure tells it.
pub struct ToldText<'c> {
    pub text: &'c [u8],
    pub with: String,
}

impl fmt::Display for ToldText<'_> {
    fn fmt(&self, f: &mut fmt::Formatter) -> fmt::Result {
        writeln!(f, "text  {}", self.text.escape_ascii())?;
        f.write_str(&self.with)
    }
}

#[cfg(test)]
mod tests {
    use super::{Told, ToldText};

    #[test]
    fn papers_are_told_in_hexadecimal() {
        let told = Told {
            file: &[0x7F, 0, 0xA],
            sheet: &[6],
            with: "scenario 3".to_string(),
        };
        assert_eq!(told.to_string(), "file  7F000A\nsheet 06\nscenario 3");
    }

    #[test]
    fn a_text_is_told_as_it_would_be_typed() {
        let told = ToldText {
            text: b"p1\r\n:-\x00\xFF",
            with: "a buffer".to_string(),
        };
        assert_eq!(told.to_string(), "text  p1\\r\\n:-\\x00\\xff\na buffer");
    }
}
