//! Reads the file `rules.txt` of each folder that it is given, writes the
//! folder's papers, `causes` and `sheet`, and `typed.txt`, the rules by number
//! that `causes` is imported from, and prints the numbers of its atoms.

use std::path::{Path, PathBuf};
use std::process::ExitCode;
use std::{env, fs, io};

use assemble::{parse, Call};

fn main() -> ExitCode {
    let folders: Vec<PathBuf> = env::args_os().skip(1).map(PathBuf::from).collect();
    if folders.is_empty() {
        eprintln!("usage: assemble FOLDER ..");
        return ExitCode::FAILURE;
    }
    for folder in &folders {
        match assemble(folder) {
            Ok(call) => print_numbers(folder, &call),
            Err(what) => {
                eprintln!("{what}");
                return ExitCode::FAILURE;
            }
        }
    }
    ExitCode::SUCCESS
}

fn assemble(folder: &Path) -> Result<Call, String> {
    let path = folder.join("rules.txt");
    let text = fs::read_to_string(&path).map_err(|error| at(&path, error))?;
    let call = parse(&text).map_err(|mistake| format!("{}, {mistake}", path.display()))?;
    for (name, content) in [
        ("typed.txt", call.typed().into_bytes()),
        ("causes", call.causes()),
        ("sheet", call.sheet()),
    ] {
        let path = folder.join(name);
        fs::write(&path, content).map_err(|error| at(&path, error))?;
    }
    Ok(call)
}

fn at(path: &Path, error: io::Error) -> String {
    format!("{}: {error}", path.display())
}

fn print_numbers(folder: &Path, call: &Call) {
    println!("{}", folder.display());
    for (atom, name) in (0..).zip(&call.names) {
        let kind = if call.faults.contains(&atom) {
            "fault"
        } else {
            "atom"
        };
        println!("{atom:5} {kind:5} {name}");
    }
}
