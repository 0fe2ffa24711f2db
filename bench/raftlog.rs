//! The same rounds as the program bench_raftlog, over queues of vectors.
use std::collections::VecDeque;
use std::hint::black_box;

enum Cmd {
    SetData { path: String, bytes: Vec<u8>, version: u32 },
}

struct Entry {
    term: u64,
    time: u64,
    session: u64,
    epoch: u64,
    seq: u64,
    cmd: Cmd,
}

fn encode(entry: &Entry) -> Vec<u8> {
    let mut out = Vec::new();
    out.extend_from_slice(&entry.term.to_be_bytes());
    out.extend_from_slice(&entry.time.to_be_bytes());
    out.push(4);
    out.extend_from_slice(&entry.session.to_be_bytes());
    out.extend_from_slice(&entry.epoch.to_be_bytes());
    out.extend_from_slice(&entry.seq.to_be_bytes());
    let Cmd::SetData { path, bytes, version } = &entry.cmd;
    out.push(3);
    out.extend_from_slice(&(path.len() as u32).to_be_bytes());
    out.extend_from_slice(path.as_bytes());
    out.extend_from_slice(&(bytes.len() as u32).to_be_bytes());
    out.extend_from_slice(bytes);
    out.extend_from_slice(&version.to_be_bytes());
    out
}

struct Reader<'a>(&'a [u8]);

impl<'a> Reader<'a> {
    fn take(&mut self, len: usize) -> Option<&'a [u8]> {
        if self.0.len() < len {
            return None;
        }
        let (front, rest) = self.0.split_at(len);
        self.0 = rest;
        Some(front)
    }
    fn long(&mut self) -> Option<u64> {
        Some(u64::from_be_bytes(self.take(8)?.try_into().ok()?))
    }
    fn int(&mut self) -> Option<u32> {
        Some(u32::from_be_bytes(self.take(4)?.try_into().ok()?))
    }
    fn byte(&mut self) -> Option<u8> {
        Some(self.take(1)?[0])
    }
    fn bytes(&mut self) -> Option<Vec<u8>> {
        let len = self.int()? as usize;
        Some(self.take(len)?.to_vec())
    }
}

fn decode(bytes: &[u8]) -> Option<Entry> {
    let mut reader = Reader(bytes);
    let (term, time) = (reader.long()?, reader.long()?);
    if reader.byte()? != 4 {
        return None;
    }
    let (session, epoch, seq) = (reader.long()?, reader.long()?, reader.long()?);
    if reader.byte()? != 3 {
        return None;
    }
    let path = String::from_utf8(reader.bytes()?).ok()?;
    let cmd = Cmd::SetData { path, bytes: reader.bytes()?, version: reader.int()? };
    Some(Entry { term, time, session, epoch, seq, cmd })
}

fn main() {
    let rounds: usize = std::env::args().nth(1).unwrap().parse().unwrap();
    let data = vec![7u8; 100];
    let mut leader: VecDeque<Vec<u8>> = VecDeque::new();
    let mut followers: [VecDeque<Vec<u8>>; 2] = [VecDeque::new(), VecDeque::new()];
    let mut sum: u64 = 0;
    for _ in 0..rounds {
        for _ in 0..64 {
            let cmd = Cmd::SetData { path: "/a".to_string(), bytes: black_box(&data).to_vec(), version: 0 };
            leader.push_back(encode(&Entry { term: 1, time: 1000, session: 1, epoch: 1, seq: 1, cmd }));
        }
        for follower in &mut followers {
            let mail: Vec<Vec<u8>> = leader.iter().cloned().collect();
            let mut records = Vec::new();
            for bytes in &mail {
                records.push(3);
                records.extend_from_slice(bytes);
                follower.push_back(bytes.clone());
            }
            for bytes in &mail {
                if let Some(entry) = decode(black_box(bytes)) {
                    sum = sum.wrapping_add(entry.time);
                    black_box(&entry);
                }
            }
            sum = sum.wrapping_add(records.len() as u64);
            follower.clear();
        }
        leader.clear();
    }
    println!("{rounds} messages, sum {sum}");
}
