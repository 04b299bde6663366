//! The seed of a random test: its own, or that of FINDER_SEED.
//!
//! Nothing else reads the variable. It is printed before anything is made from
//! it, and a test harness shows what a failed test has printed.

use std::env;

/// Names the seed of every random test that a run is to have.
pub const VARIABLE: &str = "FINDER_SEED";

/// The seed of a random test: FINDER_SEED where that is set, else `own`.
///
/// # Panics
///
/// Where FINDER_SEED is set and no number: whoever sets it wants a certain run,
/// and must not get another.
pub fn seed(own: u64) -> u64 {
    let seed = env::var_os(VARIABLE).map_or(own, |text| {
        let number = text.to_str().and_then(number);
        number.unwrap_or_else(|| {
            panic!("{VARIABLE} is {text:?}, and not a decimal or 0x number below 2^64")
        })
    });
    println!("{VARIABLE}={seed}");
    seed
}

/// The seeds of so many cases, rising from that of the test. A case of any seed
/// is the first one where FINDER_SEED is that seed.
pub fn seeds(own: u64, cases: u64) -> impl Iterator<Item = u64> {
    let first = seed(own);
    (0..cases).map(move |case| first.wrapping_add(case))
}

fn number(text: &str) -> Option<u64> {
    let (digits, radix) = match text.strip_prefix("0x") {
        Some(digits) => (digits, 16),
        None => (text, 10),
    };
    // The library would take a sign as well.
    let is_number = digits.chars().all(|digit| digit.is_digit(radix));
    is_number.then(|| u64::from_str_radix(digits, radix).ok())?
}

#[cfg(test)]
mod tests {
    use super::number;

    #[test]
    fn numbers_are_decimal_or_after_0x_hexadecimal() {
        assert_eq!(number("0"), Some(0));
        assert_eq!(number("017"), Some(17));
        assert_eq!(number("0x1F"), Some(31));
        assert_eq!(number("0x1f"), Some(31));
        assert_eq!(number("18446744073709551615"), Some(u64::MAX));
        assert_eq!(number("0xFFFFFFFFFFFFFFFF"), Some(u64::MAX));
    }

    #[test]
    fn nothing_else_is_a_number() {
        let texts = [
            "",
            " ",
            "0x",
            "0X1",
            "x1",
            "1F",
            "+1",
            "-1",
            "0x+1",
            "1 ",
            " 1",
            "1_000",
            "1.0",
            "seven",
            "18446744073709551616",
            "0x10000000000000000",
        ];
        for text in texts {
            assert_eq!(number(text), None, "{text:?}");
        }
    }
}
