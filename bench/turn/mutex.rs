//! The counter of crates/bench_turn under a `std::sync::Mutex`, to be timed beside it. The words are the same: the number of
//! threads, the calls of each thread, how often a step mixes a word, and a fourth one to print the time in microseconds.

use std::sync::Mutex;
use std::thread;
use std::time::Instant;

struct Counter {
    calls: u64,
    work: u64,
    mix: u64,
}

impl Counter {
    fn step(&mut self, event: u64) -> u64 {
        let said = self.calls;
        let mut mix = self.mix;
        for _ in 0..self.work {
            mix = (mix ^ event).rotate_left(7).wrapping_mul(6_364_136_223_846_793_005);
        }
        self.mix = mix;
        self.calls += 1;
        said
    }
}

fn main() {
    let words: Vec<String> = std::env::args().collect();
    let number = |place: usize| words.get(place).and_then(|word| word.parse().ok()).unwrap_or(1);
    let (threads, calls, work): (u64, u64, u64) = (number(1), number(2), number(3));
    let start = Instant::now();
    let counter = Mutex::new(Counter { calls: 0, work, mix: 1 });
    thread::scope(|scope| {
        for _ in 0..threads {
            scope.spawn(|| {
                for k in 0..calls {
                    std::hint::black_box(counter.lock().unwrap().step(k));
                }
            });
        }
    });
    let took = start.elapsed();
    let counter = counter.into_inner().unwrap();
    std::hint::black_box(counter.mix);
    println!("threads {threads} calls {calls} work {work}: {}", counter.calls);
    if words.len() > 4 {
        println!("{}", took.as_micros());
    }
}
