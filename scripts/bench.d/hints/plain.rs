//! A plain checker of hint lines, to compare with, and a writer of a long proof.
//!
//! `plain make FOLDER MEGABYTES` writes the files `clauses` and `proof` there, `plain check FOLDER` reads and
//! checks them.

use std::fmt::Write;
use std::time::Instant;
use std::{env, fs};

const VARIABLES: usize = 20_000;
const STEP: usize = 10;

/// The clauses 1; -1 2; -2 3; .. ; -N. The proof derives implications of ten steps, and then the empty clause.
fn make(folder: &str, megabytes: usize) {
    let mut clauses = String::from("1 1 0 0\n");
    for i in 1..VARIABLES {
        writeln!(clauses, "{} -{} {} 0 0", i + 1, i, i + 1).unwrap();
    }
    writeln!(clauses, "{} -{} 0 0", VARIABLES + 1, VARIABLES).unwrap();
    let mut proof = String::new();
    let mut id = VARIABLES + 2;
    let mut from = 1;
    while proof.len() < megabytes * 1_000_000 {
        write!(proof, "{id} -{from} {} 0", from + STEP).unwrap();
        for hint in from + 1..=from + STEP {
            write!(proof, " {hint}").unwrap();
        }
        proof.push_str(" 0\n");
        id += 1;
        from = from * 7919 % (VARIABLES - STEP) + 1;
    }
    write!(proof, "{id} 0").unwrap();
    for hint in 1..=VARIABLES + 1 {
        write!(proof, " {hint}").unwrap();
    }
    proof.push_str(" 0\n");
    fs::write(format!("{folder}/clauses"), clauses).unwrap();
    fs::write(format!("{folder}/proof"), proof).unwrap();
}

struct Line {
    id: u32,
    literals: Vec<i32>,
    hints: Vec<u32>,
}

fn read(text: &str) -> Vec<Line> {
    let mut lines = Vec::new();
    for line in text.lines() {
        let mut fields = line.split_ascii_whitespace();
        let Some(first) = fields.next() else { continue };
        if first.starts_with('c') {
            continue;
        }
        let id = first.parse().unwrap();
        let mut literals = Vec::new();
        loop {
            match fields.next().unwrap().parse().unwrap() {
                0 => break,
                literal => literals.push(literal),
            }
        }
        let mut hints = Vec::new();
        loop {
            match fields.next().unwrap().parse().unwrap() {
                0 => break,
                hint => hints.push(hint),
            }
        }
        assert!(fields.next().is_none());
        lines.push(Line {
            id,
            literals,
            hints,
        });
    }
    lines
}

fn mark(literal: i32) -> usize {
    2 * literal.unsigned_abs() as usize + usize::from(literal < 0)
}

fn follows<'a>(line: &'a Line, known: &[&'a [i32]], marks: &mut [bool]) -> bool {
    let mut set = Vec::new();
    for literal in &line.literals {
        set.push(-literal);
        marks[mark(-literal)] = true;
    }
    let mut conflict = false;
    for hint in &line.hints {
        let mut unit = None;
        for literal in known[*hint as usize] {
            if !marks[mark(-literal)] {
                assert!(unit.is_none() || unit == Some(*literal));
                unit = Some(*literal);
            }
        }
        let Some(literal) = unit else {
            conflict = true;
            break;
        };
        set.push(literal);
        marks[mark(literal)] = true;
    }
    for literal in set {
        marks[mark(literal)] = false;
    }
    conflict
}

fn check(folder: &str) {
    let clauses = read(&fs::read_to_string(format!("{folder}/clauses")).unwrap());
    let text = fs::read_to_string(format!("{folder}/proof")).unwrap();
    let start = Instant::now();
    let lines = read(&text);
    let reading = start.elapsed();
    let start = Instant::now();
    let mut known: Vec<&[i32]> = vec![&[]];
    for clause in &clauses {
        known.push(&clause.literals);
    }
    let mut marks = vec![false; 2 * VARIABLES + 2];
    let mut empty = false;
    for line in &lines {
        assert!(follows(line, &known, &mut marks));
        assert!(line.id as usize == known.len());
        known.push(&line.literals);
        empty |= line.literals.is_empty();
    }
    assert!(empty);
    let checking = start.elapsed();
    report(
        "plain",
        lines.len(),
        text.len(),
        reading.as_secs_f64(),
        checking.as_secs_f64(),
    );
}

fn report(name: &str, lines: usize, bytes: usize, reading: f64, checking: f64) {
    let megabytes = bytes as f64 / 1e6;
    let count = lines as f64;
    println!(
        "{name}: {lines} lines, {megabytes:.1} MB: read in {:.1} ms ({:.0} MB/s, {:.0} lines/s), checked in {:.1} ms ({:.0} MB/s, {:.0} lines/s)",
        1e3 * reading,
        megabytes / reading,
        count / reading,
        1e3 * checking,
        megabytes / checking,
        count / checking,
    );
}

fn main() {
    let words: Vec<String> = env::args().collect();
    match words[1].as_str() {
        "make" => make(&words[2], words[3].parse().unwrap()),
        _ => check(&words[2]),
    }
}
