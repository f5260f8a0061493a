//! Times Rust's own `BTreeMap` on the keys that `artbench KEYS KIND keys` writes: peers < KEYS-FILE
//!
//! The sums go to standard output, and are those that artbench prints for the same calls. The times go to standard error.
use std::collections::BTreeMap;
use std::io::{read_to_string, stdin};
use std::time::Instant;

/// How often the map is timed. The least time counts.
const ROUNDS: usize = 3;

/// The keys of a run.
struct Keys<K> {
    /// Those that are stored.
    stored: Vec<K>,
    /// The same ones in another order.
    hits: Vec<K>,
    /// Others, of which few or none are stored.
    misses: Vec<K>,
}

/// What one call was timed at.
struct Timed {
    call: &'static str,
    count: usize,
    sum: u64,
    nanos: u64,
}

fn main() {
    let text = read_to_string(stdin()).expect("keys on standard input");
    let mut lines = text.lines();
    let head = lines.next().expect("a line with the kind and the number of keys");
    let keys: Vec<Vec<u8>> = lines.map(bytes_of).collect();
    let rows = match head.split(' ').next() {
        Some("random8" | "dense8") => least::<[u8; 8]>(keys),
        Some("random16") => least::<[u8; 16]>(keys),
        _ => least::<Vec<u8>>(keys),
    };
    println!("{head}");
    eprintln!("{head} keys: nanoseconds of Rust's BTreeMap");
    for row in rows {
        println!("{} {} {}", row.call, row.count, row.sum);
        eprintln!("{:>20} {:>8}", row.call, row.nanos / row.count.max(1) as u64);
    }
}

/// The bytes of a line of hexadecimal digits.
fn bytes_of(line: &str) -> Vec<u8> {
    let byte = |at| u8::from_str_radix(&line[at..at + 2], 16).expect("two digits");
    (0..line.len()).step_by(2).map(byte).collect()
}

/// The least time of each call over the rounds. Of the keys the first third is stored, the second are the hits, the last the misses.
fn least<K: Ord + Clone + AsRef<[u8]> + TryFrom<Vec<u8>>>(keys: Vec<Vec<u8>>) -> Vec<Timed> {
    let made = |bytes| K::try_from(bytes).ok().expect("as many bytes as the key has");
    let mut stored: Vec<K> = keys.into_iter().map(made).collect();
    let third = stored.len() / 3;
    let misses = stored.split_off(2 * third);
    let hits = stored.split_off(third);
    let keys = Keys { stored, hits, misses };
    let mut rows = one_run(&keys);
    for _ in 1..ROUNDS {
        for (row, more) in rows.iter_mut().zip(one_run(&keys)) {
            row.nanos = row.nanos.min(more.nanos);
        }
    }
    rows
}

/// Times each call once, on a new map.
fn one_run<K: Ord + Clone + AsRef<[u8]>>(keys: &Keys<K>) -> Vec<Timed> {
    let own = keys.stored.clone();
    let count = own.len();
    let mut map = BTreeMap::new();
    let insert = timed("insert", count, || {
        for (place, key) in own.into_iter().enumerate() {
            map.insert(key, place as u64);
        }
        map.len() as u64
    });
    vec![
        insert,
        timed("hit", count, || keys.hits.iter().filter_map(|key| map.get(key)).sum()),
        timed("miss", count, || keys.misses.iter().filter_map(|key| map.get(key)).sum()),
        timed("iter", count, || map.iter().map(|(key, value)| value + key.as_ref().len() as u64).sum()),
        timed("iter, keys", count, || {
            map.iter().map(|(key, value)| value + key.as_ref().first().map_or(256, |&it| it.into())).sum()
        }),
        timed("iter_mut", count, || {
            map.values_mut().for_each(|value| *value += 1);
            map.len() as u64
        }),
        timed("remove", count, || keys.hits.iter().filter_map(|key| map.remove(key)).sum()),
    ]
}

/// Times a call that gives a sum over what it found.
fn timed(call: &'static str, count: usize, run: impl FnOnce() -> u64) -> Timed {
    let start = Instant::now();
    let sum = run();
    let nanos = start.elapsed().as_nanos() as u64;
    Timed { call, count, sum, nanos }
}
