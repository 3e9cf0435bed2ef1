//! A plain Rust program with the threads, the lock and the channel of `rgc run`: each part has a thread, which takes the lock, makes one
//! step over the same blocks, sends a record of it and goes on; the main thread puts the records in order and prints their lines.
//! The argument is `one` (a part that counts) or `four` (parts that take turns); a million steps are made.

use std::collections::BTreeMap;
use std::env;
use std::io::{self, BufWriter, Write};
use std::sync::mpsc::{self, Sender};
use std::sync::{Condvar, Mutex};
use std::thread;

const STEPS: u64 = 1_000_000;

#[derive(Clone, Copy)]
enum Operation {
    Number(u64),
    Word(usize),
    Add(u64),
    Equal,
}

enum Block {
    Do(u32, usize, Vec<(usize, Vec<Operation>)>),
    Await(u32, usize, Vec<Operation>, Vec<(usize, Vec<Operation>)>),
    Test(u32, usize, usize, Vec<Operation>),
    End,
}

struct Record {
    number: u64,
    who: usize,
    line: u32,
    before: Vec<u64>,
    after: Vec<u64>,
    cover: Vec<usize>,
}

struct Floor {
    parts: Vec<Vec<Block>>,
    values: Vec<u64>,
    places: Vec<usize>,
    stack: Vec<u64>,
    /// Who made each step, at which line, and the words that it changed.
    history: Vec<(usize, u32, Vec<(usize, u64)>)>,
}

enum Turn {
    Did(Record),
    Blocked,
    Over,
}

fn work_out(stack: &mut Vec<u64>, operations: &[Operation], values: &[u64]) -> u64 {
    stack.clear();
    for operation in operations {
        let x = match *operation {
            Operation::Number(n) => n,
            Operation::Word(k) => values[k],
            Operation::Add(mask) => {
                let b = stack.pop().unwrap();
                stack.pop().unwrap().wrapping_add(b) & mask
            }
            Operation::Equal => {
                let b = stack.pop().unwrap();
                u64::from(stack.pop().unwrap() == b)
            }
        };
        stack.push(x);
    }
    stack.pop().unwrap()
}

impl Floor {
    /// The line of a part's block and where it leads, after its stores; none where its guard doesn't hold.
    fn step(&mut self, part: usize) -> Option<u32> {
        let (line, next, stores) = match &self.parts[part][self.places[part]] {
            Block::End => return None,
            Block::Do(line, next, stores) => (*line, *next, stores.as_slice()),
            Block::Await(line, next, guard, stores) => {
                if work_out(&mut self.stack, guard, &self.values) == 0 {
                    return None;
                }
                (*line, *next, stores.as_slice())
            }
            Block::Test(line, yes, no, guard) => {
                let holds = work_out(&mut self.stack, guard, &self.values) != 0;
                (*line, if holds { *yes } else { *no }, [].as_slice())
            }
        };
        for (word, value) in stores {
            self.values[*word] = work_out(&mut self.stack, value, &self.values);
        }
        self.places[part] = next;
        Some(line)
    }

    fn turn(&mut self, part: usize) -> Turn {
        if self.history.len() as u64 == STEPS {
            return Turn::Over;
        }
        let before = self.values.clone();
        let Some(line) = self.step(part) else {
            return Turn::Blocked;
        };
        let changed: Vec<(usize, u64)> =
            (0..before.len()).filter(|k| before[*k] != self.values[*k]).map(|k| (k, self.values[k])).collect();
        // (every guarantee is true)
        let cover = (0..self.parts.len()).collect();
        self.history.push((part, line, changed));
        let number = self.history.len() as u64;
        Turn::Did(Record { number, who: part, line, before, after: self.values.clone(), cover })
    }
}

fn work(floor: &Mutex<Floor>, changed: &Condvar, part: usize, to: Sender<Record>) {
    loop {
        let mut held = floor.lock().unwrap();
        match held.turn(part) {
            Turn::Did(record) => {
                changed.notify_all();
                drop(held);
                to.send(record).unwrap();
            }
            Turn::Blocked => drop(changed.wait(held).unwrap()),
            Turn::Over => return,
        }
    }
}

fn print(writer: &mut impl Write, names: &[&str], parts: &[String], record: &Record) {
    write!(writer, "{} {} {}", record.number, parts[record.who], record.line).unwrap();
    if record.before == record.after {
        write!(writer, " same").unwrap();
    }
    for k in 0..names.len() {
        if record.before[k] != record.after[k] {
            write!(writer, " {}={}>{}", names[k], record.before[k], record.after[k]).unwrap();
        }
    }
    write!(writer, " in").unwrap();
    for k in &record.cover {
        write!(writer, " {}", parts[*k]).unwrap();
    }
    writeln!(writer).unwrap();
}

/// `while true do x := (x + 1) end`
fn one() -> Vec<Vec<Block>> {
    let value = vec![Operation::Word(0), Operation::Number(1), Operation::Add(0xffff_ffff)];
    vec![vec![Block::Test(4, 1, 2, vec![Operation::Number(1)]), Block::Do(4, 0, vec![(0, value)]), Block::End]]
}

/// Of each of four parts `while true do await (turn = K) do turn := N end end`.
fn four() -> Vec<Vec<Block>> {
    let part = |k: u64| {
        let guard = vec![Operation::Word(0), Operation::Number(k), Operation::Equal];
        let store = vec![(0, vec![Operation::Number((k + 1) % 4)])];
        vec![Block::Test(4, 1, 2, vec![Operation::Number(1)]), Block::Await(4, 0, guard, store), Block::End]
    };
    (0..4).map(part).collect()
}

fn main() {
    let is_one = env::args().nth(1).as_deref() == Some("one");
    let (parts, word) = if is_one { (one(), "x") } else { (four(), "turn") };
    let count = parts.len();
    let names: Vec<String> = (0..count).map(|k| format!("p{k}")).collect();
    let floor = Mutex::new(Floor { parts, values: vec![0], places: vec![0; count], stack: Vec::with_capacity(3), history: Vec::new() });
    let changed = Condvar::new();
    let (to, from) = mpsc::channel();
    let mut writer = BufWriter::with_capacity(65_536, io::stdout().lock());
    thread::scope(|scope| {
        for part in 0..count {
            let (floor, changed, to) = (&floor, &changed, to.clone());
            scope.spawn(move || work(floor, changed, part, to));
        }
        drop(to);
        let (mut waiting, mut next) = (BTreeMap::new(), 1);
        for record in from {
            waiting.insert(record.number, record);
            while let Some(record) = waiting.remove(&next) {
                print(&mut writer, &[word], &names, &record);
                next += 1;
            }
        }
    });
    writeln!(writer, "limit").unwrap();
    writer.flush().unwrap();
}
