//! `generate SEED RUNS [--rom PATH]` writes a run file; `generate --write-rom PATH` writes its ROM files.

mod maker;

mod runs;
mod traffic;

use std::io::{self, BufWriter, Write};
use std::process::ExitCode;

const USAGE: &str = "usage: generate SEED RUNS [--rom PATH] | generate --write-rom PATH";

fn main() -> ExitCode {
    let arguments: Vec<String> = std::env::args().skip(1).collect();
    let words: Vec<&str> = arguments.iter().map(String::as_str).collect();
    let result = match words.as_slice() {
        ["--write-rom", path] => write_rom(path),
        [seed, runs] => with_numbers(seed, runs, "rom.bin"),
        [seed, runs, "--rom", path] => with_numbers(seed, runs, path),
        _ => Err(USAGE.to_string()),
    };
    match result {
        Ok(()) => ExitCode::SUCCESS,
        Err(cause) => {
            eprintln!("{cause}");
            ExitCode::FAILURE
        }
    }
}

fn with_numbers(seed: &str, runs: &str, rom: &str) -> Result<(), String> {
    let seed = seed.parse().map_err(|_| USAGE.to_string())?;
    let runs = runs.parse().map_err(|_| USAGE.to_string())?;
    let mut out = BufWriter::with_capacity(1 << 16, io::stdout().lock());
    write_runs(seed, runs, rom, &mut out).map_err(|error| format!("cannot write: {error}"))
}

fn write_runs(seed: u64, runs: u32, rom: &str, out: &mut impl Write) -> io::Result<()> {
    writeln!(out, "# seed {seed}, {runs} runs")?;
    writeln!(out, "rom {rom}")?;
    for run in 0..runs {
        out.write_all(runs::run(seed, run, rom).as_bytes())?;
    }
    out.flush()
}

/// 2,048 bytes that are the same everywhere, and beside them a file of 100 bytes that is refused as a ROM.
fn write_rom(path: &str) -> Result<(), String> {
    let mut rng = second::rng::Rng::new(6846);
    let bytes: Vec<u8> = (0..2048).map(|_| rng.word() as u8).collect();
    let write = |path: &str, bytes: &[u8]| {
        std::fs::write(path, bytes).map_err(|error| format!("cannot write {path}: {error}"))
    };
    write(path, &bytes)?;
    write(&format!("{path}.short"), &bytes[..100])
}
