//! Measures checks of one file, for bench/run, and prints numbers only.
//!
//!     bench time FILE ENGINE ..    number, condition, total or place, tests, then the milliseconds of each engine
//!     bench stack FILE             number, bytes of stack for the check, and for the single test of the last condition at the last state

mod engines;
mod stack;
mod timing;

use engines::{Engine, ENGINES};
use std::process::ExitCode;

fn main() -> ExitCode {
    let arguments: Vec<String> = std::env::args().skip(1).collect();
    let words: Vec<&str> = arguments.iter().map(String::as_str).collect();
    match words.as_slice() {
        ["time", file, names @ ..] if !names.is_empty() => time(&read(file), names),
        ["stack", file] => measure(&read(file)),
        _ => {
            eprintln!("bench time FILE ENGINE .. or bench stack FILE");
            return ExitCode::from(2);
        }
    }
    ExitCode::SUCCESS
}

fn read(path: &str) -> Vec<u8> {
    std::fs::read(path).expect(path)
}

fn time(file: &[u8], names: &[&str]) {
    let named = |name: &&str| {
        ENGINES
            .iter()
            .find(|engine| engine.name == *name)
            .expect(name)
    };
    let engines: Vec<&Engine> = names.iter().map(named).collect();
    let (verdict, seconds) = timing::compared(&engines, file);
    print!("{} {} {}", verdict.number, verdict.at, verdict.tests);
    for time in seconds {
        print!(" {:.6}", time * 1e3);
    }
    println!();
}

fn measure(file: &[u8]) {
    let read = independent::read(file).expect("a readable file");
    let (condition, state) = (read.conditions().len() - 1, read.states() - 1);
    let mut number = 0;
    let check = stack::taken(|| number = vd::check(file).number);
    let single = stack::taken(|| assert!(vd::single(file, condition, state).is_ok()));
    println!("{number} {check} {single}");
}
