//! The measure beside a hit of the database: lookups in the standard library's map, of the same names and with a copy of the reply.
//! Its words: the number of entries, that of lookups, and the length of each reply in bytes; and the number of threads, where these share
//! the lookups, in a map behind a lock of readers and writers. Then it prints the nanoseconds of the thread that took longest.
use std::collections::HashMap;
use std::env;
use std::hint::black_box;
use std::sync::RwLock;
use std::thread;
use std::time::{Duration, Instant};

fn name_of(number: usize) -> [u8; 11] {
    let mut name = *b"user0000000";
    let mut rest = number;
    for digit in name[4..].iter_mut().rev() {
        *digit = b'0' + (rest % 10) as u8;
        rest /= 10;
    }
    name
}

type Map = HashMap<Vec<u8>, Vec<u8>>;

fn look(map: &Map, number: usize, length: usize) {
    let reply = map.get(name_of(number).as_slice()).expect("an entry");
    assert_eq!(black_box(reply.clone()).len(), length);
}

// So many lookups in turn, each under the lock.
fn looks(map: &RwLock<Map>, entries: usize, count: usize, length: usize) -> Duration {
    let start = Instant::now();
    for turn in 0..count {
        look(&map.read().expect("the lock"), turn % entries, length);
    }
    start.elapsed()
}

fn main() {
    let words: Vec<usize> = env::args().skip(1).map(|word| word.parse().expect("a number")).collect();
    let (entries, count, length) = (words[0], words[1], words[2]);
    let mut map: Map = HashMap::new();
    for number in 0..entries {
        map.insert(name_of(number).to_vec(), vec![0; length]);
    }
    let Some(threads) = words.get(3) else {
        for turn in 0..count {
            look(&map, turn % entries, length);
        }
        return;
    };
    let map = RwLock::new(map);
    let took = thread::scope(|scope| {
        let started: Vec<_> =
            (0..*threads).map(|_| scope.spawn(|| looks(&map, entries, count / threads, length))).collect();
        started.into_iter().map(|thread| thread.join().expect("a thread")).max()
    });
    println!("{} nanoseconds", took.unwrap_or_default().as_nanos());
}
