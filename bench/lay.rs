//! How long laying a candidate takes: all candidates of a table, one after another. Prints nanoseconds a candidate.

mod tables;

use std::hint::black_box;
use std::time::Instant;

use tables::table;

unsafe extern "C" {
    fn mandolkhui_check(table: *const u8, len: usize, scope: u8) -> u64;
    fn mandolkhui_lay(table: *const u8, len: usize, scope: u8, first: u32, last: u32) -> u64;
}

const SCOPE: u8 = 5;

/// One of so many atoms.
fn one_of(types: std::ops::Range<u16>) -> Vec<(u8, u16)> {
    let mut items = vec![(1, types.start)];
    for event in types.skip(1) {
        items.extend([(1, event), (5, 0)]);
    }
    items
}

fn time(name: &str, table: &[u8]) {
    // Both calls ask nothing of their arguments but that the slice is one.
    let total = unsafe { mandolkhui_check(table.as_ptr(), table.len(), SCOPE) } as u32;
    let mut best = f64::INFINITY;
    let mut events = 0;
    for _ in 0..5 {
        let start = Instant::now();
        events = unsafe { mandolkhui_lay(black_box(table.as_ptr()), table.len(), SCOPE, 0, total) };
        best = best.min(start.elapsed().as_nanos() as f64 / f64::from(total));
    }
    let mean = events as f64 / f64::from(total);
    println!("{name}: {total} candidates of {mean:.1} events on average, {best:.0} ns a candidate, {:.1} ns an event", best / mean);
}

fn main() {
    // two roots: up to six of three events in order, up to three of nine events as a set
    let mut many = one_of(10..13);
    many.extend([(6, 6 * 256), (8, 1)]);
    many.extend(one_of(20..29));
    many.extend([(7, 3 * 256), (8, 2)]);
    time("many short candidates", &table(2, &many));
    // fifteen times a sequence of four events, the last of two types
    let mut long = vec![(1, 10), (1, 11), (3, 0), (1, 12), (3, 0)];
    long.extend(one_of(13..15));
    long.extend([(3, 0), (6, 15 + 15 * 256), (8, 1)]);
    time("long candidates", &table(1, &long));
    // the same as a set of events with two inside, each of two types
    let mut nested = one_of(10..12);
    nested.extend([(1, 12), (3, 0), (2, 13), (7, 15 + 15 * 256), (8, 1)]);
    time("nested candidates", &table(1, &nested));
}
