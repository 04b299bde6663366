//! A file read and its dual written: the time grows with the dual.

use crate::columns::{cells, heads};
use crate::files::Papers;
use crate::finders::{Buffers, Finder, Finders};
use crate::measuring::{times, work, Agreed};
use crate::timing::{grouped, microseconds, Times};

pub fn print(finders: &Finders, files: &[&Papers]) {
    let all = finders.all();
    println!("\nA file read and its dual written");
    println!("    {:12}{:>7}{:>8}{}", "", "rules", "dual", heads(&all));
    for papers in files {
        let (length, times) = writing(&all, papers);
        println!(
            "    {:12}{:>7}{:>8}{}",
            papers.name,
            grouped(papers.program.rules.len() as u64),
            grouped(length),
            cells(&times, microseconds)
        );
    }
}

/// The dual's length, and the seconds for reading the file and writing it.
pub fn writing(finders: &[&dyn Finder], papers: &Papers) -> (u64, Times) {
    let agreed = Agreed::new();
    let times = times(finders, |finder| {
        let agreed = &agreed;
        let mut buffers = Buffers::new();
        let words = finder.write_dual(papers, &mut buffers);
        agreed.expect(&(words, buffers.dual.clone()), finder);
        Some(work(finder, move || {
            finder.write_dual(papers, &mut buffers);
            1
        }))
    });
    let ([number, _, _, length, ..], _) = *agreed.answer();
    assert_eq!(number, 0, "the file is accepted");
    (length, times)
}
