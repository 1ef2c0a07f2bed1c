//! How long a table check takes. Prints nanoseconds a check, and those of a plain Rust reading of the same table for comparison.

mod tables;

use std::hint::black_box;
use std::time::Instant;

use tables::table;

unsafe extern "C" {
    fn mandolkhui_check(table: *const u8, len: usize, scope: u8) -> u64;
}

fn proved(table: &[u8], scope: u8) -> u64 {
    // The call asks nothing of its arguments but that the slice is one.
    unsafe { mandolkhui_check(table.as_ptr(), table.len(), scope) }
}

/// Counts and lengths alone, of a table that is known to be accepted: what the check cannot do without.
fn plain(table: &[u8], scope: u8) -> u64 {
    let word = |at: usize| usize::from(table[at]) + 256 * usize::from(table[at + 1]);
    let items = word(0);
    let mut waiting: Vec<(u64, u64)> = Vec::with_capacity(items);
    let mut total = 1;
    for i in 0..items {
        let argument = word(4 + items + 2 * i);
        match table[4 + i] {
            0 => waiting.push((1, 0)),
            1 => waiting.push((1, 1)),
            2 => waiting.last_mut().unwrap().1 += 1,
            3 | 4 => {
                let later = waiting.pop().unwrap();
                let earlier = waiting.last_mut().unwrap();
                *earlier = (earlier.0 * later.0, earlier.1 + later.1);
            }
            5 => {
                let later = waiting.pop().unwrap();
                let earlier = waiting.last_mut().unwrap();
                *earlier = (earlier.0 + later.0, earlier.1.max(later.1));
            }
            6 | 7 => {
                let most = if argument / 256 == 255 { usize::from(scope) } else { argument / 256 };
                let once = waiting.last_mut().unwrap();
                *once = ((argument % 256..=most).map(|k| once.0.pow(k as u32)).sum(), most as u64 * once.1);
            }
            8 => total *= waiting.pop().unwrap().0,
            _ => {}
        }
    }
    total
}

fn time(name: &str, table: &[u8], check: impl Fn(&[u8], u8) -> u64) {
    let turns = 20_000;
    let mut best = f64::INFINITY;
    for _ in 0..7 {
        let start = Instant::now();
        for _ in 0..turns {
            black_box(check(black_box(table), black_box(2)));
        }
        best = best.min(start.elapsed().as_nanos() as f64 / f64::from(turns));
    }
    println!("{name}: {best:.0} ns, answer {}", check(table, 2));
}

fn main() {
    let mut deep = vec![(1, 10)];
    for _ in 0..126 {
        deep.extend([(0, 0), (3, 0)]);
    }
    deep.extend([(6, 257), (8, 1)]);
    let mut shares = vec![(1, 10), (8, 1), (1, 10), (8, 2)];
    for _ in 0..83 {
        shares.extend([(9, 10), (9, 266), (10, 0)]);
    }
    shares.extend([(9, 10), (14, 64)]);
    let logs = [(1, 10), (6, 65280), (8, 1), (1, 20), (6, 65280), (8, 2), (9, 10), (9, 276), (11, 0)];
    for (name, table) in [
        ("two logs, 9 items", table(2, &logs)),
        ("a sequence of 127 patterns, 255 items", table(1, &deep)),
        ("83 shares, 255 items", table(2, &shares)),
    ] {
        time(&format!("{name}, proved"), &table, proved);
        time(&format!("{name}, plain"), &table, plain);
    }
}
