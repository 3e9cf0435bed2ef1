//! The same work as main.rt, as a plain Rust program over the hash map of std, by SipHash or with `fx` by a faster hash.
#![allow(dead_code)]

use std::collections::HashMap;
use std::hash::{BuildHasher, BuildHasherDefault, Hasher, RandomState};
use std::time::Instant;
#[derive(Clone, Copy, PartialEq, Eq, Hash)]
enum Lit {
    True,
    False,
    Variable { number: u32, negative: bool },
}
#[derive(Clone, Copy, PartialEq, Eq, Hash)]
struct Gate {
    first: Lit,
    second: Lit,
}
#[derive(Default)]
struct Fx(u64);
impl Hasher for Fx {
    fn finish(&self) -> u64 {
        self.0
    }
    fn write(&mut self, b: &[u8]) {
        for x in b {
            self.write_u64(*x as u64)
        }
    }
    fn write_u8(&mut self, x: u8) {
        self.write_u64(x as u64)
    }
    fn write_u32(&mut self, x: u32) {
        self.write_u64(x as u64)
    }
    fn write_usize(&mut self, x: usize) {
        self.write_u64(x as u64)
    }
    fn write_isize(&mut self, x: isize) {
        self.write_u64(x as u64)
    }
    fn write_u64(&mut self, x: u64) {
        self.0 = (self.0.rotate_left(5) ^ x).wrapping_mul(0x517cc1b727220a95)
    }
}
struct Gates<S> {
    inputs: u32,
    gates: Vec<Gate>,
    map: HashMap<Gate, u32, S>,
}
fn rank(n: u32, s: bool) -> u64 {
    2 * n as u64 + s as u64
}
impl<S: BuildHasher> Gates<S> {
    fn and(&mut self, a: Lit, b: Lit) -> Option<Lit> {
        match (a, b) {
            (Lit::False, _) | (_, Lit::False) => Some(Lit::False),
            (Lit::True, o) | (o, Lit::True) => Some(o),
            (
                Lit::Variable {
                    number: m,
                    negative: s,
                },
                Lit::Variable {
                    number: n,
                    negative: t,
                },
            ) => {
                if m == n {
                    return Some(if s == t { a } else { Lit::False });
                }
                let gate = if rank(m, s) < rank(n, t) {
                    Gate {
                        first: a,
                        second: b,
                    }
                } else {
                    Gate {
                        first: b,
                        second: a,
                    }
                };
                let count = self.inputs + self.gates.len() as u32;
                if count == 16_777_216 {
                    return self.map.get(&gate).map(|&number| Lit::Variable {
                        number,
                        negative: false,
                    });
                }
                let gates = &mut self.gates;
                let number = *self.map.entry(gate).or_insert_with(|| {
                    gates.push(gate);
                    count + 1
                });
                Some(Lit::Variable {
                    number,
                    negative: false,
                })
            }
        }
    }
}
fn build<S: BuildHasher>(gates: &mut Gates<S>, count: u32) -> u64 {
    let mut sum = 0;
    for pair in 0..count {
        let mixed = pair.wrapping_mul(0x9E37_79B1) & 0xFF_FFFF;
        let a = Lit::Variable {
            number: 1 + mixed % 4096,
            negative: false,
        };
        let b = Lit::Variable {
            number: 1 + 4096 + mixed / 4096 % 4096,
            negative: pair % 2 == 1,
        };
        if let Some(Lit::Variable { number, .. }) = gates.and(a, b) {
            sum += number as u64
        }
    }
    sum
}
fn run<S: BuildHasher + Default>(name: &str) {
    let count = 16_777_216 - 8192;
    let mut gates: Gates<S> = Gates {
        inputs: 8192,
        gates: Vec::new(),
        map: HashMap::default(),
    };
    let t = Instant::now();
    let a = build(&mut gates, count);
    let made = t.elapsed().as_millis();
    let t = Instant::now();
    let b = build(&mut gates, count);
    let found = t.elapsed().as_millis();
    println!(
        "{name}: new {made} ms, {} per second; found {found} ms, {} per second; sums {a} {b}",
        count as u128 * 1000 / made,
        count as u128 * 1000 / found
    );
    let status = std::fs::read_to_string("/proc/self/status").unwrap();
    for l in status.lines() {
        if l.starts_with("VmHWM") || l.starts_with("VmRSS") {
            println!("{l}");
        }
    }
    println!("gate {} bytes", std::mem::size_of::<Gate>());
}
fn main() {
    match std::env::args().nth(1).as_deref() {
        Some("fx") => run::<BuildHasherDefault<Fx>>("HashMap, Fx"),
        _ => run::<RandomState>("HashMap, SipHash"),
    }
}
