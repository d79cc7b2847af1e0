//! Compares the library with the original, which runs as a program of its own, on random inputs.

mod calendar;
mod case;
mod damage;
mod dice;
mod exact;
mod listings;
mod next;
mod oracle;
mod ours;
mod random;
mod schedules;
mod sheet;
mod shrink;
mod tally;

use std::process::ExitCode;

use crate::oracle::Oracle;

const USAGE: &str = "usage: compare listings ORACLE CASES SEED     listings, and damaged copies of each input
       compare schedules ORACLE CASES SEED    build, addition and listing by themselves
       compare plain ORACLE CASES SEED        next change, against the original's days one by one
       compare next ORACLE CASES SEED         next change, against the original's own search
       compare valgrind CASES SEED            the library alone, every slice in a block of its size; run it under valgrind
ORACLE is the path of the original's program; the exit status is 1 where something differs";

fn run(words: &[&str]) -> Result<u64, String> {
    let number = |word: &str| word.parse::<u64>().map_err(|_| USAGE.to_string());
    let oracle = |program: &str| Oracle { program: program.into() };
    match *words {
        ["listings", program, cases, seed] => listings::run(&oracle(program), number(cases)?, number(seed)?),
        ["schedules", program, cases, seed] => schedules::run(&oracle(program), number(cases)?, number(seed)?),
        ["plain", program, cases, seed] => next::plain(&oracle(program), number(cases)?, number(seed)?),
        ["next", program, cases, seed] => next::own(&oracle(program), number(cases)?, number(seed)?),
        ["valgrind", cases, seed] => exact::run(number(cases)?, number(seed)?),
        _ => Err(USAGE.into()),
    }
}

fn main() -> ExitCode {
    let words: Vec<String> = std::env::args().skip(1).collect();
    let words: Vec<&str> = words.iter().map(String::as_str).collect();
    match run(&words) {
        Ok(0) => ExitCode::SUCCESS,
        Ok(differences) => {
            println!("{differences} differences");
            ExitCode::FAILURE
        }
        Err(message) => {
            eprintln!("{message}");
            ExitCode::from(2)
        }
    }
}
