//! The same rounds as the program bench_region, over std's queue of vectors.
use std::collections::VecDeque;

fn main() {
    let args: Vec<usize> = std::env::args().skip(1).map(|word| word.parse().unwrap()).collect();
    let (rounds, len, waiting) = (args[0], args[1], args[2]);
    let text = vec![7u8; len];
    let mut queue: VecDeque<Vec<u8>> = VecDeque::new();
    let mut sum: u64 = 0;
    for round in 0..rounds {
        queue.push_back(std::hint::black_box(&text).to_vec());
        if waiting <= round {
            sum = sum.wrapping_add(queue.front().map_or(0, |text| text.len() as u64));
            queue.pop_front();
        }
    }
    println!("{rounds} strings of {len} bytes, sum {sum}");
}
