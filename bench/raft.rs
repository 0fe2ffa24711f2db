//! The same rounds as the program bench_raft: one leader and two followers by the same rules, over queues of vectors.
use std::collections::VecDeque;
use std::hint::black_box;

struct Entry {
    term: u64,
    bytes: Vec<u8>,
}

enum Mail {
    Append { term: u64, from: usize, prev: u64, prev_term: u64, commit: u64, entries: Vec<Entry> },
    AppendRep { term: u64, from: usize, ok: bool, last: u64 },
}

struct Member {
    node: usize,
    term: u64,
    base: u64,
    base_term: u64,
    log: VecDeque<Entry>,
    commit: u64,
    matches: [u64; 4],
    nexts: [u64; 4],
}

impl Member {
    fn last(&self) -> u64 {
        self.base + self.log.len() as u64
    }
    fn term_at(&self, index: u64) -> Option<u64> {
        if index == self.base {
            return Some(self.base_term);
        }
        self.log.get(index.checked_sub(self.base + 1)? as usize).map(|entry| entry.term)
    }
    fn propose(&mut self, bodies: Vec<(String, Vec<u8>)>) -> Vec<u8> {
        let mut records = Vec::new();
        for (path, data) in &bodies {
            let bytes = encode(self.term, 1000, path, data);
            records.push(3);
            records.extend_from_slice(&bytes);
            self.log.push_back(Entry { term: self.term, bytes });
        }
        records
    }
    fn beat(&self) -> Vec<(usize, Mail)> {
        let mut mails = Vec::new();
        for peer in (1..4).filter(|peer| *peer != self.node) {
            let prev = self.nexts[peer] - 1;
            let mut entries = Vec::new();
            let mut room: usize = 1_048_576;
            for entry in self.log.iter().skip((prev - self.base) as usize).take(64) {
                if room == 0 {
                    break;
                }
                room = room.saturating_sub(entry.bytes.len());
                entries.push(Entry { term: entry.term, bytes: entry.bytes.clone() });
            }
            let prev_term = self.term_at(prev).unwrap();
            mails.push((peer, Mail::Append { term: self.term, from: self.node, prev, prev_term, commit: self.commit, entries }));
        }
        mails
    }
    fn take(&mut self, mail: Mail) -> (Vec<u8>, Option<(usize, Mail)>) {
        let mut records = Vec::new();
        match mail {
            Mail::Append { term, from, prev, prev_term, commit, entries } => {
                let fits = term >= self.term && (prev <= self.base || self.term_at(prev) == Some(prev_term));
                if !fits {
                    return (records, Some((from, Mail::AppendRep { term: self.term, from: self.node, ok: false, last: self.last() })));
                }
                let count = entries.len() as u64;
                for (k, entry) in entries.iter().enumerate() {
                    let index = prev + 1 + k as u64;
                    if index <= self.base || self.term_at(index) == Some(entry.term) {
                        continue;
                    }
                    if index <= self.last() {
                        self.log.truncate((index - self.base - 1) as usize);
                    }
                    records.push(3);
                    records.extend_from_slice(&entry.bytes);
                    self.log.push_back(Entry { term: entry.term, bytes: entry.bytes.clone() });
                }
                self.commit = self.commit.max(commit.min(prev + count));
                (records, Some((from, Mail::AppendRep { term, from: self.node, ok: true, last: prev + count })))
            }
            Mail::AppendRep { term, from, ok, last } => {
                if term == self.term && ok {
                    self.matches[from] = self.matches[from].max(last);
                    self.nexts[from] = self.matches[from] + 1;
                    let mut index = self.last();
                    while index > self.commit {
                        let held = 1 + (1..4).filter(|peer| *peer != self.node && self.matches[*peer] >= index).count();
                        if 2 * held > 3 && self.term_at(index) == Some(self.term) {
                            self.commit = index;
                            break;
                        }
                        index -= 1;
                    }
                }
                (records, None)
            }
        }
    }
    fn compact(&mut self) {
        if self.base < self.commit {
            self.base_term = self.term_at(self.commit).unwrap();
            self.log.drain(..(self.commit - self.base) as usize);
            self.base = self.commit;
        }
    }
}

fn encode(term: u64, time: u64, path: &str, data: &[u8]) -> Vec<u8> {
    let mut out = Vec::new();
    out.extend_from_slice(&term.to_be_bytes());
    out.extend_from_slice(&time.to_be_bytes());
    out.push(4);
    for number in [1u64, 1, 1] {
        out.extend_from_slice(&number.to_be_bytes());
    }
    out.push(3);
    out.extend_from_slice(&(path.len() as u32).to_be_bytes());
    out.extend_from_slice(path.as_bytes());
    out.extend_from_slice(&(data.len() as u32).to_be_bytes());
    out.extend_from_slice(data);
    out.extend_from_slice(&0u32.to_be_bytes());
    out
}

fn main() {
    let rounds: usize = std::env::args().nth(1).unwrap().parse().unwrap();
    let data = vec![7u8; 100];
    let mut cluster: Vec<Member> = (1..4)
        .map(|node| Member { node, term: 1, base: 0, base_term: 0, log: VecDeque::new(), commit: 0, matches: [0; 4], nexts: [1; 4] })
        .collect();
    // the no-op with which a leader begins
    let noop = [1u64.to_be_bytes(), 0u64.to_be_bytes()].concat();
    cluster[0].log.push_back(Entry { term: 1, bytes: [&noop[..], &[0]].concat() });
    for _ in 0..rounds {
        let bodies = (0..64).map(|_| ("/a".to_string(), black_box(&data).clone())).collect();
        black_box(cluster[0].propose(bodies));
        let mut mails = cluster[0].beat();
        while let Some((to, mail)) = mails.pop() {
            let (records, answer) = cluster[to - 1].take(mail);
            black_box(records);
            if let Some((to, answer)) = answer {
                black_box(cluster[to - 1].take(answer));
            }
        }
        for member in &mut cluster {
            member.compact();
        }
    }
    println!("{rounds} messages, commit index {}", cluster[0].commit);
}
