//! Lines over pipes: a program that answers each line with itself, and a client that waits for each answer.
use crate::statement::cycle_texts;
use std::io::{BufRead, BufReader, Write};
use std::process::{Command, Stdio};
use std::time::Instant;

pub fn echo() {
    let (mut input, mut output) = (std::io::stdin().lock(), std::io::stdout().lock());
    let mut line = Vec::new();
    while input.read_until(b'\n', &mut line).unwrap() > 0 {
        output.write_all(&line).unwrap();
        output.flush().unwrap();
        line.clear();
    }
}

/// The round trips a second of a client that gives cycles of session 1 line by line, each of which is answered by a
/// line.
pub fn trips(seconds: f64, program: &[&str]) -> f64 {
    let mut child =
        Command::new(program[0]).args(&program[1..]).stdin(Stdio::piped()).stdout(Stdio::piped()).spawn().unwrap();
    let mut input = child.stdin.take().unwrap();
    let mut output = BufReader::new(child.stdout.take().unwrap());
    let cycle = |turn| cycle_texts(0, turn, &format!("k0_{turn}"));
    let lines: Vec<String> = (0..100).flat_map(cycle).map(|text| format!("1 {text}\n")).collect();
    let (mut done, mut answer, begun) = (0, Vec::new(), Instant::now());
    while begun.elapsed().as_secs_f64() < seconds {
        for line in &lines {
            input.write_all(line.as_bytes()).unwrap();
            answer.clear();
            output.read_until(b'\n', &mut answer).unwrap();
            assert!(answer.ends_with(b"\n"), "the program ended");
            done += 1;
        }
    }
    let per_second = done as f64 / begun.elapsed().as_secs_f64();
    drop(input);
    child.wait().unwrap();
    per_second
}
