//! A second program for document 01 and document 02's §3 to §6, §9, §10 and §12:
//! it reads a trace script on standard input and prints the answers on standard
//! output.

mod chip;
mod frame;
mod numbers;
mod rate;
mod rom;
mod sound;
mod trace;
mod voice;

#[cfg(test)]
mod tests;

use std::io::{self, BufWriter, Read, Write};
use std::process::ExitCode;

/// Standard input, as far as is needed to see whether it is over the limit.
fn script() -> io::Result<Vec<u8>> {
    let mut bytes = Vec::new();
    let most = trace::MOST_SCRIPT_BYTES as u64 + 1;
    io::stdin().lock().take(most).read_to_end(&mut bytes)?;
    Ok(bytes)
}

fn answer() -> io::Result<()> {
    let script = script()?;
    let mut out = BufWriter::new(io::stdout().lock());
    trace::play(&script, &mut out)?;
    out.flush()
}

fn main() -> ExitCode {
    match answer() {
        Ok(()) => ExitCode::SUCCESS,
        Err(_) => ExitCode::FAILURE,
    }
}
