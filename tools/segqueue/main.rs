//! What the shared port's puts and takes cost in a plain `SegQueue`, beside which `docs/PERFORMANCE.md` sets them.
//!
//!     segqueue puts 1000000      pushes by one thread, then as many pops
//!     segqueue four 1000000      pushes by four threads beside as many pops
//!
//! An entry has the fields of the port's: a signal with room for two values, or a timer with its fuse, and behind it
//! the sender's number and its count of puts.

use crossbeam_queue::SegQueue;
use std::env;
use std::hint::black_box;
use std::process::exit;
use std::thread;
use std::time::Instant;

#[allow(dead_code)]
#[derive(Clone, Copy)]
enum Value {
    Int(i64),
    Bool(bool),
    Pid(u32),
    Time(i64),
}

#[allow(dead_code)]
enum Values {
    Few([Value; 2], usize),
    Many(Box<[Value]>),
}

#[allow(dead_code)]
struct Key {
    name: u32,
    values: Values,
}

#[allow(dead_code)]
enum Entry {
    Signal { signal: Key, sender: Option<u32> },
    Timer { pid: u32, key: Key, arm: u64, due: u64 },
}

#[allow(dead_code)]
struct Numbered {
    entry: Entry,
    sender: u32,
    count: u64,
}

fn numbered(sender: u32, count: u64) -> Numbered {
    let values = Values::Few([Value::Int(count as i64), Value::Bool(false)], 1);
    let signal = Key { name: 0, values };
    let entry = Entry::Signal { signal, sender: None };
    Numbered { entry, sender, count }
}

fn push(queue: &SegQueue<Numbered>, sender: u32, times: u64) {
    for count in 0..times {
        queue.push(black_box(numbered(sender, count)));
    }
}

fn pop(queue: &SegQueue<Numbered>, times: u64) {
    let mut taken = 0;
    while taken < times {
        match queue.pop() {
            Some(entry) => {
                black_box(entry);
                taken += 1;
            }
            None => thread::yield_now(),
        }
    }
}

fn main() {
    let words: Vec<String> = env::args().skip(1).collect();
    let (what, times) = match words.as_slice() {
        [what, times] => (what.as_str(), times.parse::<u64>().unwrap_or(0)),
        _ => ("", 0),
    };
    let queue = SegQueue::new();
    let began = Instant::now();
    match what {
        "puts" => {
            push(&queue, 0, times);
            pop(&queue, times);
        }
        "four" => thread::scope(|scope| {
            let queue = &queue;
            for sender in 0..4 {
                scope.spawn(move || push(queue, sender, times / 4));
            }
            pop(queue, times / 4 * 4);
        }),
        _ => {
            eprintln!("segqueue puts N, or segqueue four N");
            exit(4);
        }
    }
    println!("{what} {times}: {} ms", began.elapsed().as_millis());
}
