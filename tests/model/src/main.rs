//! Program mode: standard input to standard output.

use std::io::Write;

fn main() {
    let text = model::program::run(&mut std::io::stdin().lock());
    let mut output = std::io::stdout().lock();
    // Nobody is left to tell if the output is closed.
    let _ = output.write_all(text.as_bytes());
    let _ = output.flush();
}
