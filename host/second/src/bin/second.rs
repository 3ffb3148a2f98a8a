//! `second FILE`: replays a run file and prints what it gives.

use second::runfile::{replay, Stop};
use second::Nobody;
use std::io::{BufWriter, Write};
use std::process::ExitCode;

fn main() -> ExitCode {
    let arguments: Vec<_> = std::env::args_os().skip(1).collect();
    let path = match arguments.as_slice() {
        [path] => path,
        _ => {
            eprintln!("usage: second FILE");
            return ExitCode::from(2);
        }
    };
    let text = match std::fs::read(path) {
        Ok(text) => text,
        Err(error) => {
            eprintln!("cannot read {}: {error}", path.to_string_lossy());
            return ExitCode::from(2);
        }
    };
    let mut out = BufWriter::with_capacity(1 << 16, std::io::stdout().lock());
    let result = match replay(&text, &mut out, &mut Nobody) {
        Ok(()) => out.flush().map(|()| ExitCode::SUCCESS),
        Err(Stop::Line(line, cause)) => {
            eprintln!("line {line}: {cause}");
            writeln!(out, "stopped at line {line}")
                .and_then(|()| out.flush())
                .map(|()| ExitCode::FAILURE)
        }
        Err(Stop::Output(error)) => Err(error),
    };
    result.unwrap_or_else(|error| {
        eprintln!("cannot write the output: {error}");
        ExitCode::from(2)
    })
}
