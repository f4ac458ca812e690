// What no table by hash can go below: one insertion of each key of a situation's inputs, in the order in which they
// are shared, into a table and a list in plain Rust, and nothing else. It prints nanoseconds an insertion, the least
// of fifteen runs, for as many inputs as `bench/situations` has: how they grow is what the memory of this machine
// does.
//
// rustc -O bench/peers/insertions.rs; ./insertions
use std::collections::HashMap;
use std::hash::{BuildHasherDefault, Hash, Hasher};
use std::time::Instant;

#[derive(Clone, Copy, Default)]
struct Folds(u64);

impl Hasher for Folds {
    fn finish(&self) -> u64 {
        self.0
    }

    fn write(&mut self, bytes: &[u8]) {
        for byte in bytes {
            self.write_u64(u64::from(*byte));
        }
    }

    fn write_u64(&mut self, word: u64) {
        let product = u128::from(self.0 ^ word) * 0x9e37_79b9_7f4a_7c15;
        self.0 = (product as u64) ^ ((product >> 64) as u64);
    }

    fn write_u32(&mut self, word: u32) {
        self.write_u64(u64::from(word));
    }
}

#[derive(Clone, Copy, PartialEq, Eq, Hash)]
struct Key {
    variable: u64,
    member: u32,
    month: u32,
    size: u64,
}

#[derive(Clone, Copy)]
#[allow(dead_code)]
struct Value(i64, i64);

/// Seven years of twelve months for so many persons, year by year; answers how many there are.
fn inserted(persons: u32) -> u64 {
    let mut table: HashMap<Key, usize, BuildHasherDefault<Folds>> = HashMap::default();
    let mut entries = Vec::new();
    for year in 0..7 {
        for member in 0..persons {
            for month in 0..12 {
                let key = Key { variable: 1, member, month: year * 12 + month, size: 1 };
                table.entry(key).or_insert_with(|| {
                    entries.push((key, Value(1, 1)));
                    entries.len() - 1
                });
            }
        }
    }
    entries.len() as u64
}

fn main() {
    for (persons, count) in [(10, 4000), (100, 400), (1000, 40)] {
        let mut least = f64::MAX;
        for _ in 0..15 {
            let start = Instant::now();
            let all: u64 = (0..count).map(|_| inserted(persons)).sum();
            least = least.min(start.elapsed().as_nanos() as f64 / all as f64);
        }
        println!("{:6} inputs: {least:.1} ns an insertion", persons * 84);
    }
}
