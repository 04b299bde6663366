//! The columns that all tables end with: what is measured of the library, then
//! for each finder beside it the same and how many times as fast the library is.

use crate::finders::Finder;

const WIDTH: usize = 15;
const RATIO_WIDTH: usize = 8;

pub fn heads(finders: &[&dyn Finder]) -> String {
    named_heads(finders.iter().map(|finder| finder.name()))
}

pub fn named_heads<'n>(names: impl Iterator<Item = &'n str>) -> String {
    let mut text = String::new();
    for (place, name) in names.enumerate() {
        text += &format!("{name:>WIDTH$}");
        if place > 0 {
            text += &format!("{:>RATIO_WIDTH$}", "ratio");
        }
    }
    text
}

/// The cells of the times, in the order of the finders.
pub fn cells(times: &[Option<f64>], show: impl Fn(f64) -> String) -> String {
    let library = times[0].expect("the library is never left out");
    let mut text = format!("{:>WIDTH$}", show(library));
    for time in &times[1..] {
        let cells = time.map(|time| (show(time), format!("{:.2}", time / library)));
        let (time, ratio) = cells.unwrap_or(("-".to_string(), String::new()));
        text += &format!("{time:>WIDTH$}{ratio:>RATIO_WIDTH$}");
    }
    text
}

#[cfg(test)]
mod tests {
    use super::*;

    #[test]
    fn a_ratio_says_how_many_times_as_fast_the_library_is() {
        let show = |seconds: f64| format!("{seconds} s");
        let text = cells(&[Some(2.0), Some(5.0), None], show);
        let words: Vec<&str> = text.split_whitespace().collect();
        assert_eq!(words, ["2", "s", "5", "s", "2.50", "-"]);
    }
}
