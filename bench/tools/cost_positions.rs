//! The cost of a position, by the number of positions: a command that takes `--from`, over the last positions of its
//! grid, and over its last position alone right behind it, into a file. All commands and numbers take turns, round by
//! round, so that a slower minute of the machine meets each of them. Prints for each the nanoseconds of one position,
//! user and system time together: the middle one of the differences between the two runs of a pair, over the positions
//! between.
//!
//! Its words are the file to write, the logarithms to base 2 of the size of the grids, of the fewest and of the most
//! positions, and the commands.
use std::env;
use std::fs::File;
use std::io;
use std::process::Command;

/// Each number is so many times the one before, as a logarithm to base 2.
const APART: u64 = 2;
/// How many rounds there are, where BENCH_ROUNDS says nothing.
const ROUNDS: u64 = 24;
/// A command is run so many nanoseconds long in each round, or once.
const ROUND: u64 = 20_000_000;
const CHILDREN: i32 = -1;

#[repr(C)]
struct Time {
    seconds: i64,
    microseconds: i64,
}

/// What the system tells of the processes that have ended: their times in user and in system mode, and more.
#[repr(C)]
struct Usage {
    user: Time,
    system: Time,
    others: [i64; 14],
}

unsafe extern "C" {
    fn getrusage(who: i32, usage: *mut Usage) -> i32;
}

/// The nanoseconds of all processes that this one has waited for.
fn used() -> u64 {
    let none = || Time { seconds: 0, microseconds: 0 };
    let mut usage = Usage { user: none(), system: none(), others: [0; 14] };
    // the record is the system's own, and large enough
    unsafe { getrusage(CHILDREN, &mut usage) };
    let Usage { user, system, others: _ } = usage;
    (1_000_000 * (user.seconds + system.seconds) + user.microseconds + system.microseconds) as u64 * 1000
}

/// The time of one run from a position to the end of the grid.
fn run(words: &str, file: &str, from: u64) -> io::Result<u64> {
    let mut parts = words.split(' ');
    let mut command = Command::new(parts.next().unwrap_or_default());
    command.args(parts).args(["--from", &from.to_string()]).stdout(File::create(file)?);
    let before = used();
    let status = command.status()?;
    if !status.success() {
        return Err(io::Error::other(format!("{words} --from {from}: {status}")));
    }
    Ok(used() - before)
}

/// The middle one.
fn median(times: &mut [i64]) -> f64 {
    times.sort_unstable();
    times[times.len() / 2] as f64
}

fn main() -> io::Result<()> {
    let words: Vec<String> = env::args().collect();
    let number = |place: usize| words[place].parse::<u64>().map_err(io::Error::other);
    let (file, size, fewest, most) = (&words[1], 1 << number(2)?, number(3)?, number(4)?);
    let counts: Vec<u64> = (fewest..=most).step_by(APART as usize).map(|power| 1 << power).collect();
    let mut cells: Vec<(&String, u64, Vec<i64>)> = Vec::new();
    for command in &words[5..] {
        cells.extend(counts.iter().map(|count| (command, *count, Vec::new())));
    }
    let rounds = env::var("BENCH_ROUNDS").ok().and_then(|text| text.parse().ok()).unwrap_or(ROUNDS);
    for _ in 0..rounds {
        for (command, count, differences) in &mut cells {
            let mut left = ROUND;
            while left > 0 {
                let many = run(command, file, size - *count)?;
                differences.push(many as i64 - run(command, file, size - 1)? as i64);
                left = left.saturating_sub(many.max(1));
            }
        }
    }
    for cells in cells.chunks_mut(counts.len()) {
        println!("{}", cells[0].0);
        let (mut least, mut greatest) = (f64::INFINITY, 0f64);
        for (_, count, differences) in cells {
            let each = median(differences) / (*count - 1) as f64;
            (least, greatest) = (least.min(each), greatest.max(each));
            println!("  the last {count} positions: {each:.1} ns each, {} runs", differences.len());
        }
        println!("  apart {:.0} percent", 100.0 * (greatest / least - 1.0));
    }
    Ok(())
}
