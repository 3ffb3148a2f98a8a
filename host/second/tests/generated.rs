//! Random runs: k cycles are k plain cycles, and the same seed gives the same text.

use second::runfile::{replay, Stop};
use second::Nobody;
use std::path::PathBuf;
use std::process::Command;

fn generated(arguments: &[&str]) -> String {
    let output = Command::new(env!("CARGO_BIN_EXE_generate"))
        .args(arguments)
        .output()
        .unwrap();
    assert!(output.status.success());
    String::from_utf8(output.stdout).unwrap()
}

fn rom(name: &str) -> String {
    let path = PathBuf::from(env!("CARGO_TARGET_TMPDIR")).join(name);
    let path = path.to_str().unwrap().to_string();
    generated(&["--write-rom", &path]);
    assert_eq!(std::fs::metadata(&path).unwrap().len(), 2048);
    assert_eq!(
        std::fs::metadata(format!("{path}.short")).unwrap().len(),
        100
    );
    path
}

/// What the commands that only look print.
fn looks(text: &str) -> Vec<String> {
    let mut out = Vec::new();
    if let Err(Stop::Line(line, cause)) = replay(text.as_bytes(), &mut out, &mut Nobody) {
        panic!("line {line}: {cause}");
    }
    let out = String::from_utf8(out).unwrap();
    out.lines()
        .filter(|line| !line.starts_with("68"))
        .map(String::from)
        .collect()
}

#[test]
fn a_batch_is_its_single_cycles() {
    let rom = rom("single.bin");
    let text = generated(&["5", "200", "--rom", &rom]);
    let mut single = String::new();
    for line in text.lines() {
        let words: Vec<&str> = line.split_whitespace().collect();
        match words.as_slice() {
            ["move", chip, cycles, ..] if cycles.len() < 7 => {
                let cycles: u32 = cycles.trim_end_matches("#").parse().unwrap_or(0);
                for _ in 0..cycles {
                    single.push_str(&format!("move {chip} 1\n"));
                }
                if cycles == 0 {
                    single.push_str(&format!("{line}\n"));
                }
            }
            _ => single.push_str(&format!("{line}\n")),
        }
    }
    assert_eq!(looks(&text), looks(&single));
}

#[test]
fn the_same_seed_gives_the_same_text() {
    assert_eq!(generated(&["9", "30"]), generated(&["9", "30"]));
    assert_ne!(generated(&["9", "30"]), generated(&["10", "30"]));
}
