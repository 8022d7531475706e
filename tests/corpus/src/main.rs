//! The stored runs of `crates/corpus`.
//!
//!     corpus inputs DIR      writes the inputs, one file each, and prints their names
//!     corpus expected DIR    prints what the model says of each input, in the order of their names
//!
//! Inputs are a book and frames as the program reads them. Random ones have fixed seeds.

mod gangs;
mod journals;
mod positions;
mod repeats;
mod stored;

use std::path::Path;
use std::{env, fs, process};

fn main() {
    let words: Vec<String> = env::args().skip(1).collect();
    let done = match words.iter().map(String::as_str).collect::<Vec<_>>()[..] {
        ["inputs", folder] => write_inputs(Path::new(folder)),
        ["expected", folder] => print_expected(Path::new(folder)),
        _ => Err("usage: corpus inputs DIR | corpus expected DIR".into()),
    };
    if let Err(why) = done {
        eprintln!("corpus: {why}");
        process::exit(1);
    }
}

fn write_inputs(folder: &Path) -> Result<(), String> {
    fs::create_dir_all(folder).map_err(|e| e.to_string())?;
    for (name, bytes) in stored::all() {
        fs::write(folder.join(&name), bytes).map_err(|e| format!("{name}: {e}"))?;
        println!("{name}");
    }
    Ok(())
}

/// The text that the program over the corpus prints: each input's name, then its run.
fn print_expected(folder: &Path) -> Result<(), String> {
    let entries = fs::read_dir(folder).map_err(|e| e.to_string())?;
    let mut names: Vec<String> = entries
        .filter_map(|entry| entry.ok()?.file_name().into_string().ok())
        .collect();
    names.sort();
    for name in names {
        let bytes = fs::read(folder.join(&name)).map_err(|e| format!("{name}: {e}"))?;
        print!("# {name}\n{}", model::program::run(&mut &bytes[..]));
    }
    Ok(())
}
