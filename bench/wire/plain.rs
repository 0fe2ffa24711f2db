//! A plain codec of a few records of the wire protocol, to compare the proved one with: requests of
//! create, setData and getData are read, and their replies are written. Same records, same checks.
//!
//! `plain read|write create|set|get ROUNDS`

use std::hint::black_box;

struct Acl {
    perms: i32,
    scheme: Option<String>,
    id: Option<String>,
}

enum Ask {
    Create { path: Option<String>, data: Option<Vec<u8>>, acl: Option<Vec<Acl>>, flags: i32 },
    SetData { path: Option<String>, data: Option<Vec<u8>>, version: i32 },
    GetData { path: Option<String>, watch: bool },
}

struct Request {
    xid: i32,
    ask: Ask,
}

struct Stat {
    czxid: u64,
    mzxid: u64,
    ctime: u64,
    mtime: u64,
    version: u32,
    cversion: u32,
    aversion: u32,
    owner: u64,
    len: u32,
    kids: u32,
    pzxid: u64,
}

enum Reply {
    Path(String),
    Stat(Stat),
    Data(Option<Vec<u8>>, Stat),
}

/// A record that ends too early, or that isn't one, at this place.
struct Bad(usize);

struct Reader<'a> {
    bytes: &'a [u8],
    place: usize,
}

impl<'a> Reader<'a> {
    fn take(&mut self, from: usize, n: usize) -> Result<&'a [u8], Bad> {
        let bytes = self.bytes;
        let taken = bytes.get(self.place..).and_then(|rest| rest.get(..n)).ok_or(Bad(from))?;
        self.place += n;
        Ok(taken)
    }

    fn int(&mut self) -> Result<i32, Bad> {
        let at = self.place;
        let b = self.take(at, 4)?;
        Ok(i32::from_be_bytes([b[0], b[1], b[2], b[3]]))
    }

    fn boolean(&mut self) -> Result<bool, Bad> {
        let at = self.place;
        match self.take(at, 1)?[0] {
            0 => Ok(false),
            1 => Ok(true),
            _ => Err(Bad(at)),
        }
    }

    fn count(&mut self) -> Result<Option<usize>, Bad> {
        let at = self.place;
        match self.int()? {
            -1 => Ok(None),
            n if n < 0 => Err(Bad(at)),
            n => Ok(Some(n as usize)),
        }
    }

    fn buffer(&mut self) -> Result<Option<Vec<u8>>, Bad> {
        let at = self.place;
        match self.count()? {
            None => Ok(None),
            Some(n) => Ok(Some(self.take(at, n)?.to_vec())),
        }
    }

    fn ustring(&mut self) -> Result<Option<String>, Bad> {
        let at = self.place;
        match self.count()? {
            None => Ok(None),
            Some(n) => match std::str::from_utf8(self.take(at, n)?) {
                Ok(text) => Ok(Some(text.to_string())),
                Err(_) => Err(Bad(at)),
            },
        }
    }

    fn acls(&mut self) -> Result<Option<Vec<Acl>>, Bad> {
        let Some(count) = self.count()? else { return Ok(None) };
        let mut acls = Vec::new();
        for _ in 0..count {
            acls.push(Acl { perms: self.int()?, scheme: self.ustring()?, id: self.ustring()? });
        }
        Ok(Some(acls))
    }
}

fn read_request(frame: &[u8]) -> Result<Request, Bad> {
    let mut reader = Reader { bytes: frame, place: 0 };
    if reader.int()? as usize != frame.len() - 4 {
        return Err(Bad(0));
    }
    let xid = reader.int()?;
    let at = reader.place;
    let ask = match reader.int()? {
        1 => Ask::Create { path: reader.ustring()?, data: reader.buffer()?, acl: reader.acls()?, flags: reader.int()? },
        5 => Ask::SetData { path: reader.ustring()?, data: reader.buffer()?, version: reader.int()? },
        4 => Ask::GetData { path: reader.ustring()?, watch: reader.boolean()? },
        _ => return Err(Bad(at)),
    };
    if reader.place < frame.len() {
        return Err(Bad(reader.place));
    }
    Ok(Request { xid, ask })
}

fn put_int(out: &mut Vec<u8>, n: i32) {
    out.extend_from_slice(&n.to_be_bytes());
}

fn put_long(out: &mut Vec<u8>, n: u64) {
    out.extend_from_slice(&n.to_be_bytes());
}

fn put_stat(out: &mut Vec<u8>, stat: &Stat) {
    put_long(out, stat.czxid);
    put_long(out, stat.mzxid);
    put_long(out, stat.ctime);
    put_long(out, stat.mtime);
    put_int(out, stat.version as i32);
    put_int(out, stat.cversion as i32);
    put_int(out, stat.aversion as i32);
    put_long(out, stat.owner);
    put_int(out, stat.len as i32);
    put_int(out, stat.kids as i32);
    put_long(out, stat.pzxid);
}

fn write_reply(xid: i32, zxid: u64, reply: &Reply) -> Vec<u8> {
    let mut out = Vec::new();
    put_int(&mut out, 0);
    put_int(&mut out, xid);
    put_long(&mut out, zxid);
    put_int(&mut out, 0);
    match reply {
        Reply::Path(path) => {
            put_int(&mut out, path.len() as i32);
            out.extend_from_slice(path.as_bytes());
        }
        Reply::Stat(stat) => put_stat(&mut out, stat),
        Reply::Data(data, stat) => {
            match data {
                None => put_int(&mut out, -1),
                Some(data) => {
                    put_int(&mut out, data.len() as i32);
                    out.extend_from_slice(data);
                }
            }
            put_stat(&mut out, stat);
        }
    }
    let len = (out.len() - 4) as i32;
    out[..4].copy_from_slice(&len.to_be_bytes());
    out
}

const PATH: &str = "/clickhouse/tables/01/replicas/r1";

fn put_text(out: &mut Vec<u8>, text: &[u8]) {
    put_int(out, text.len() as i32);
    out.extend_from_slice(text);
}

fn request(kind: &str) -> Vec<u8> {
    let mut frame = Vec::new();
    put_int(&mut frame, 0);
    put_int(&mut frame, 7);
    put_int(&mut frame, match kind { "create" => 1, "set" => 5, _ => 4 });
    put_text(&mut frame, PATH.as_bytes());
    match kind {
        "create" => {
            put_text(&mut frame, &[b'x'; 100]);
            put_int(&mut frame, 1);
            put_int(&mut frame, 31);
            put_text(&mut frame, b"world");
            put_text(&mut frame, b"anyone");
            put_int(&mut frame, 0);
        }
        "set" => {
            put_text(&mut frame, &[b'x'; 100]);
            put_int(&mut frame, -1);
        }
        _ => frame.push(0),
    }
    let len = (frame.len() - 4) as i32;
    frame[..4].copy_from_slice(&len.to_be_bytes());
    frame
}

fn size(request: &Request) -> usize {
    match &request.ask {
        Ask::Create { path, data, acl, flags } => {
            let lines = acl.iter().flatten().map(|a| a.perms as usize + a.scheme.iter().len() + a.id.iter().len()).sum::<usize>();
            path.iter().map(String::len).sum::<usize>() + data.iter().map(Vec::len).sum::<usize>() + lines + *flags as usize
        }
        Ask::SetData { path, data, version } => path.iter().map(String::len).sum::<usize>() + data.iter().map(Vec::len).sum::<usize>() + *version as usize % 2,
        Ask::GetData { path, watch } => path.iter().map(String::len).sum::<usize>() + *watch as usize,
    }
    .wrapping_add(request.xid as usize)
}

fn main() {
    let words: Vec<String> = std::env::args().skip(1).collect();
    let (Some(way), Some(kind), Some(rounds)) = (words.first(), words.get(1), words.get(2).and_then(|w| w.parse::<u64>().ok())) else {
        eprintln!("usage: plain read|write create|set|get ROUNDS");
        std::process::exit(2);
    };
    let stat = || Stat { czxid: 3, mzxid: 4, ctime: 1000, mtime: 1000, version: 1, cversion: 0, aversion: 0, owner: 0, len: 100, kids: 0, pzxid: 3 };
    let frame = request(kind);
    let reply = match kind.as_str() {
        "create" => Reply::Path(PATH.to_string()),
        "set" => Reply::Stat(stat()),
        _ => Reply::Data(Some(vec![b'x'; 100]), stat()),
    };
    let mut sum = 0usize;
    for _ in 0..rounds {
        sum = sum.wrapping_add(match way.as_str() {
            "read" => match black_box(read_request(black_box(&frame))) {
                Ok(request) => size(&request),
                Err(Bad(at)) => panic!("no request: bad at {at}"),
            },
            _ => black_box(write_reply(7, 9, black_box(&reply))).len(),
        });
    }
    println!("{rounds} frames, sum {sum}");
}
