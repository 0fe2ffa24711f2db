//! A plain connection beside the proved one: the codec of bench/wire/plain.rs, a queue of requests and one buffer for
//! what goes out. Requests of getData and setData come in pieces of 64.
//!
//! `plain get|set ROUNDS`

#![allow(dead_code)]

use std::collections::VecDeque;
use std::hint::black_box;

enum Ask {
    SetData { path: Option<String>, data: Option<Vec<u8>>, version: i32 },
    GetData { path: Option<String>, watch: bool },
}

struct Request {
    xid: i32,
    ask: Ask,
}

struct Stat {
    czxid: u64,
    mzxid: u64,
    ctime: u64,
    mtime: u64,
    version: u32,
    cversion: u32,
    aversion: u32,
    owner: u64,
    len: u32,
    kids: u32,
    pzxid: u64,
}

enum Reply {
    Stat(Stat),
    Data(Option<Vec<u8>>, Stat),
}

/// A record that ends too early, or that isn't one, at this place.
struct Bad(usize);

struct Reader<'a> {
    bytes: &'a [u8],
    place: usize,
}

impl<'a> Reader<'a> {
    fn take(&mut self, from: usize, n: usize) -> Result<&'a [u8], Bad> {
        let bytes = self.bytes;
        let taken = bytes.get(self.place..).and_then(|rest| rest.get(..n)).ok_or(Bad(from))?;
        self.place += n;
        Ok(taken)
    }

    fn int(&mut self) -> Result<i32, Bad> {
        let at = self.place;
        let b = self.take(at, 4)?;
        Ok(i32::from_be_bytes([b[0], b[1], b[2], b[3]]))
    }

    fn boolean(&mut self) -> Result<bool, Bad> {
        let at = self.place;
        match self.take(at, 1)?[0] {
            0 => Ok(false),
            1 => Ok(true),
            _ => Err(Bad(at)),
        }
    }

    fn buffer(&mut self) -> Result<Option<Vec<u8>>, Bad> {
        let at = self.place;
        match self.int()? {
            -1 => Ok(None),
            n if n < 0 => Err(Bad(at)),
            n => Ok(Some(self.take(at, n as usize)?.to_vec())),
        }
    }

    fn ustring(&mut self) -> Result<Option<String>, Bad> {
        let at = self.place;
        match self.buffer()? {
            None => Ok(None),
            Some(bytes) => String::from_utf8(bytes).map(Some).map_err(|_| Bad(at)),
        }
    }
}

fn read_request(frame: &[u8]) -> Result<Request, Bad> {
    let mut reader = Reader { bytes: frame, place: 4 };
    let xid = reader.int()?;
    let at = reader.place;
    let ask = match reader.int()? {
        5 => Ask::SetData { path: reader.ustring()?, data: reader.buffer()?, version: reader.int()? },
        4 => Ask::GetData { path: reader.ustring()?, watch: reader.boolean()? },
        _ => return Err(Bad(at)),
    };
    if reader.place < frame.len() {
        return Err(Bad(reader.place));
    }
    Ok(Request { xid, ask })
}

fn put_int(out: &mut Vec<u8>, n: i32) {
    out.extend_from_slice(&n.to_be_bytes());
}

fn put_long(out: &mut Vec<u8>, n: u64) {
    out.extend_from_slice(&n.to_be_bytes());
}

fn put_stat(out: &mut Vec<u8>, stat: &Stat) {
    for n in [stat.czxid, stat.mzxid, stat.ctime, stat.mtime] {
        put_long(out, n);
    }
    put_int(out, stat.version as i32);
    put_int(out, stat.cversion as i32);
    put_int(out, stat.aversion as i32);
    put_long(out, stat.owner);
    put_int(out, stat.len as i32);
    put_int(out, stat.kids as i32);
    put_long(out, stat.pzxid);
}

fn write_reply(out: &mut Vec<u8>, xid: i32, zxid: u64, reply: &Reply) {
    let from = out.len();
    put_int(out, 0);
    put_int(out, xid);
    put_long(out, zxid);
    put_int(out, 0);
    match reply {
        Reply::Stat(stat) => put_stat(out, stat),
        Reply::Data(data, stat) => {
            match data {
                None => put_int(out, -1),
                Some(data) => {
                    put_int(out, data.len() as i32);
                    out.extend_from_slice(data);
                }
            }
            put_stat(out, stat);
        }
    }
    let len = (out.len() - from - 4) as i32;
    out[from..from + 4].copy_from_slice(&len.to_be_bytes());
}

/// A connection: the bytes of a frame that isn't whole, what waits, and what goes out.
struct Conn {
    kept: Vec<u8>,
    queue: VecDeque<Request>,
    out: Vec<u8>,
}

impl Conn {
    fn feed(&mut self, piece: &[u8]) -> Result<Vec<Request>, Bad> {
        let joined;
        let bytes = if self.kept.is_empty() {
            piece
        } else {
            self.kept.extend_from_slice(piece);
            joined = std::mem::take(&mut self.kept);
            &joined
        };
        let mut requests = Vec::new();
        let mut used = 0;
        while bytes.len() - used >= 4 {
            let len = u32::from_be_bytes(bytes[used..used + 4].try_into().unwrap()) as usize;
            if len > 1_048_575 {
                return Err(Bad(used));
            }
            if bytes.len() - used < 4 + len {
                break;
            }
            requests.push(read_request(&bytes[used..used + 4 + len])?);
            used += 4 + len;
        }
        self.kept = bytes[used..].to_vec();
        Ok(requests)
    }

    fn answer(&mut self, zxid: u64, reply: &Reply) {
        if let Some(request) = self.queue.pop_front() {
            write_reply(&mut self.out, request.xid, zxid, reply);
            black_box(&request.ask);
        }
    }
}

const PATH: &str = "/clickhouse/tables/01/replicas/r1";

fn put_text(out: &mut Vec<u8>, text: &[u8]) {
    put_int(out, text.len() as i32);
    out.extend_from_slice(text);
}

fn request(kind: &str) -> Vec<u8> {
    let mut frame = Vec::new();
    put_int(&mut frame, 0);
    put_int(&mut frame, 7);
    put_int(&mut frame, if kind == "set" { 5 } else { 4 });
    put_text(&mut frame, PATH.as_bytes());
    if kind == "set" {
        put_text(&mut frame, &[b'x'; 100]);
        put_int(&mut frame, -1);
    } else {
        frame.push(0);
    }
    let len = (frame.len() - 4) as i32;
    frame[..4].copy_from_slice(&len.to_be_bytes());
    frame
}

fn main() {
    let words: Vec<String> = std::env::args().skip(1).collect();
    let (Some(kind), Some(rounds)) = (words.first(), words.get(1).and_then(|w| w.parse::<u64>().ok())) else {
        eprintln!("usage: plain get|set ROUNDS");
        std::process::exit(2);
    };
    let stat = Stat { czxid: 3, mzxid: 4, ctime: 1000, mtime: 1000, version: 1, cversion: 0, aversion: 0, owner: 0, len: 100, kids: 0, pzxid: 3 };
    let piece = request(kind).repeat(64);
    let reply = if kind == "set" { Reply::Stat(stat) } else { Reply::Data(Some(vec![b'x'; 100]), stat) };
    let mut conn = Conn { kept: Vec::new(), queue: VecDeque::new(), out: Vec::new() };
    let mut sum = 0usize;
    for _ in 0..rounds {
        match conn.feed(black_box(&piece)) {
            Ok(requests) => conn.queue.extend(requests),
            Err(Bad(at)) => panic!("no request: bad at {at}"),
        }
        while !conn.queue.is_empty() {
            conn.answer(9, black_box(&reply));
        }
        sum = sum.wrapping_add(black_box(std::mem::take(&mut conn.out)).len());
    }
    println!("{rounds} pieces, sum {sum}");
}
