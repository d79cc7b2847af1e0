//! The original as a program beside this one, asked in batches through pipes.

use std::io::{Read, Write};
use std::process::{Command, Stdio};
use std::thread;

pub struct Oracle {
    pub program: String,
}

impl Oracle {
    /// The answers to many inputs, in order.
    pub fn ask(&self, words: &[&str], inputs: &[Vec<u8>]) -> Result<Vec<String>, String> {
        if inputs.is_empty() {
            return Ok(Vec::new());
        }
        let mut batch = Vec::new();
        for input in inputs {
            batch.extend((input.len() as u32).to_be_bytes());
            batch.extend(input);
        }
        let answers = split(&self.run(words, batch)?);
        if answers.len() != inputs.len() {
            return Err(format!("{} answers to {} inputs", answers.len(), inputs.len()));
        }
        Ok(answers)
    }

    /// What the program writes for some bytes.
    pub fn run(&self, words: &[&str], bytes: Vec<u8>) -> Result<String, String> {
        let say = |error: std::io::Error| format!("{}: {error}", self.program);
        let mut child = Command::new(&self.program)
            .args(words)
            .stdin(Stdio::piped())
            .stdout(Stdio::piped())
            .spawn()
            .map_err(say)?;
        let mut stdin = child.stdin.take().expect("piped");
        // Written beside the reading: both pipes are shorter than a batch.
        let writer = thread::spawn(move || stdin.write_all(&bytes));
        let mut text = String::new();
        child.stdout.take().expect("piped").read_to_string(&mut text).map_err(say)?;
        writer.join().expect("the writer does not panic").map_err(say)?;
        let status = child.wait().map_err(say)?;
        if status.success() { Ok(text) } else { Err(format!("{}: {status}", self.program)) }
    }
}

/// The texts between lines `--`.
pub fn split(text: &str) -> Vec<String> {
    let mut answers = vec![String::new()];
    for line in text.split_inclusive('\n') {
        if line == "--\n" {
            answers.push(String::new());
        } else {
            answers.last_mut().expect("never empty").push_str(line);
        }
    }
    answers
}
