//! How fast the finder behind the C boundary settles scenarios beside the
//! separate one, how that grows with the abducibles and falls with held faults,
//! what a call costs beside what it tries, what writing a dual costs, how long
//! the longest call takes, what the worst scenarios cost, and how much stack it
//! takes. All on one core, in the time of the processor.
//!
//! `bench OTHER.so` measures another build of the library beside this one; see
//! [`other`].
//!
//! * [`files`] makes the files that are measured;
//! * [`finders`] are what is measured, and [`other`] opens another library;
//! * [`searching`] goes through whole searches with any finder;
//! * [`timing`] times, [`measuring`] does so with several finders, and
//!   [`columns`] prints the times beside each other;
//! * [`speed`], [`growth`], [`held`], [`allowances`], [`writing`],
//!   [`longest_calls`], [`one_scenario`] and [`stack`] are the tables.

mod allowances;
mod columns;
mod files;
mod finders;
mod growth;
mod held;
mod longest_calls;
mod measuring;
mod one_scenario;
mod other;
mod searching;
mod speed;
mod stack;
mod timing;
mod writing;

use std::env;
use std::path::Path;
use std::process::ExitCode;

use files::seeded::{LARGE, MIDDLE, MIDDLE_12, SMALL, SMALL_12};
use files::{largest, layered, many_finds};
use finders::Finders;
use other::Other;

fn main() -> ExitCode {
    match other_of_arguments() {
        Ok(other) => {
            print(&Finders { other });
            ExitCode::SUCCESS
        }
        Err(message) => {
            eprintln!("{message}");
            ExitCode::FAILURE
        }
    }
}

fn other_of_arguments() -> Result<Option<Other>, String> {
    let arguments: Vec<_> = env::args_os().skip(1).collect();
    match &arguments[..] {
        [] => Ok(None),
        [path] => {
            let path = Path::new(path);
            let other = Other::open(path)?;
            println!("The other library is {}.\n", path.display());
            Ok(Some(other))
        }
        _ => Err("usage: bench [OTHER.so]".to_string()),
    }
}

fn print(finders: &Finders) {
    let [small, middle, large] = [SMALL, MIDDLE, LARGE].map(|shape| shape.papers());
    let [small_12, middle_12] = [SMALL_12, MIDDLE_12].map(|shape| shape.papers());
    let many_finds = many_finds::papers();
    let judged = [&small, &middle, &large];
    let files = [&small, &middle, &large, &small_12, &middle_12, &many_finds];
    speed::print(finders, &files, &judged);
    growth::print(finders, &MIDDLE, 6..=13);
    held::print(finders, &middle);
    allowances::print(finders, &middle);
    let (layers, largest) = (layered::papers(), largest::papers());
    writing::print(finders, &[&small, &middle, &large, &layers, &largest]);
    longest_calls::print(finders, &[&middle, &large, &middle_12, &many_finds]);
    one_scenario::print(finders);
    stack::print(finders, &large);
}
