//! The same homes as the program bench_homes has, by a plain program over a `BTreeMap`; and the files that both read.
use std::collections::BTreeMap;
use std::fs::{self, File};
use std::hint::black_box;
use std::io::Write;

const WORLD: (u32, &str, &str) = (31, "world", "anyone");

// ---- what is kept

struct Line {
    perms: u32,
    scheme: String,
    id: String,
}

struct Node {
    data: Vec<u8>,
    acl: Vec<Line>,
    czxid: u64,
    mzxid: u64,
    pzxid: u64,
    ctime: u64,
    mtime: u64,
    version: u32,
    cversion: u32,
    aversion: u32,
    owner: u64,
    made: u32,
    kids: u32,
}

struct Tree {
    index: u64,
    term: u64,
    next: u64,
    nodes: BTreeMap<String, Node>,
}

struct Entry {
    term: u64,
    time: u64,
    session: u64,
    epoch: u64,
    seq: u64,
    path: String,
    data: Vec<u8>,
    version: u32,
}

struct Found {
    image_len: u64,
    term: u64,
    vote: u8,
    boot: u64,
    entries: Vec<Entry>,
}

// ---- writing

fn text(out: &mut Vec<u8>, bytes: &[u8]) {
    out.extend_from_slice(&(bytes.len() as u32).to_be_bytes());
    out.extend_from_slice(bytes);
}

fn put_node(out: &mut Vec<u8>, path: &str, node: &Node) {
    text(out, path.as_bytes());
    text(out, &node.data);
    out.extend_from_slice(&(node.acl.len() as u32).to_be_bytes());
    for line in &node.acl {
        out.extend_from_slice(&line.perms.to_be_bytes());
        text(out, line.scheme.as_bytes());
        text(out, line.id.as_bytes());
    }
    for number in [node.czxid, node.mzxid, node.pzxid, node.ctime, node.mtime] {
        out.extend_from_slice(&number.to_be_bytes());
    }
    for number in [node.version, node.cversion, node.aversion] {
        out.extend_from_slice(&number.to_be_bytes());
    }
    out.extend_from_slice(&node.owner.to_be_bytes());
    out.extend_from_slice(&node.made.to_be_bytes());
}

fn encode(tree: &Tree) -> Vec<u8> {
    let mut out = b"KPI1".to_vec();
    for number in [tree.index, tree.term, tree.next] {
        out.extend_from_slice(&number.to_be_bytes());
    }
    out.extend_from_slice(&0u32.to_be_bytes());
    out.extend_from_slice(&(tree.nodes.len() as u32).to_be_bytes());
    for (path, node) in &tree.nodes {
        put_node(&mut out, path, node);
    }
    out
}

fn head(generation: u64, image_len: u64) -> Vec<u8> {
    let mut out = b"\x01KPJ1".to_vec();
    out.extend_from_slice(&generation.to_be_bytes());
    out.push(1);
    out.extend_from_slice(&image_len.to_be_bytes());
    out
}

fn put_batch(out: &mut Vec<u8>, body: &[u8]) {
    out.push(1);
    text(out, body);
}

fn first_records() -> Vec<u8> {
    let mut body = vec![1];
    body.extend_from_slice(&1u64.to_be_bytes());
    body.push(1);
    body.push(2);
    body.extend_from_slice(&1u64.to_be_bytes());
    body
}

fn put_entry(out: &mut Vec<u8>, seq: u64, path: &str, data: &[u8]) {
    out.push(3);
    out.extend_from_slice(&1u64.to_be_bytes());
    out.extend_from_slice(&1000u64.to_be_bytes());
    out.push(4);
    for number in [1, 1, seq] {
        out.extend_from_slice(&number.to_be_bytes());
    }
    out.push(3);
    text(out, path.as_bytes());
    text(out, data);
    out.extend_from_slice(&0u32.to_be_bytes());
}

// ---- the files that both programs read

fn sample(index: u64, kids: u32) -> Node {
    let (perms, scheme, id) = WORLD;
    let acl = vec![Line { perms, scheme: scheme.to_string(), id: id.to_string() }];
    let data = if index == 0 { Vec::new() } else { vec![7; 100] };
    Node { data, acl, czxid: index, mzxid: index, pzxid: index, ctime: 1000, mtime: 1000, version: 0, cversion: kids, aversion: 0, owner: 0, made: kids, kids }
}

fn make_image(count: u64) {
    let mut nodes = BTreeMap::new();
    nodes.insert("/".to_string(), sample(0, count as u32));
    for index in 1..=count {
        nodes.insert(format!("/node-{index:010}"), sample(index, 0));
    }
    let image = encode(&Tree { index: count, term: 1, next: 1, nodes });
    let mut journal = head(1, image.len() as u64);
    put_batch(&mut journal, &first_records());
    journal.push(0);
    fs::write("n1.i0", &image).unwrap();
    fs::write("n1.j0", &journal).unwrap();
}

fn make_log(count: u64) {
    let mut journal = head(1, 0);
    put_batch(&mut journal, &first_records());
    let data = vec![7; 100];
    let mut seq = 0;
    while seq < count {
        let mut body = Vec::new();
        for _ in 0..1000.min(count - seq) {
            seq += 1;
            put_entry(&mut body, seq, &format!("/node-{seq:010}"), &data);
        }
        put_batch(&mut journal, &body);
    }
    journal.push(0);
    fs::write("n1.j0", &journal).unwrap();
    fs::write("n1.i0", b"").unwrap();
}

// ---- reading

struct Reader<'a>(&'a [u8]);

impl<'a> Reader<'a> {
    fn take(&mut self, len: usize) -> Option<&'a [u8]> {
        if self.0.len() < len {
            return None;
        }
        let (front, rest) = self.0.split_at(len);
        self.0 = rest;
        Some(front)
    }
    fn long(&mut self) -> Option<u64> {
        Some(u64::from_be_bytes(self.take(8)?.try_into().ok()?))
    }
    fn int(&mut self) -> Option<u32> {
        Some(u32::from_be_bytes(self.take(4)?.try_into().ok()?))
    }
    fn byte(&mut self) -> Option<u8> {
        Some(self.take(1)?[0])
    }
    fn bytes(&mut self) -> Option<Vec<u8>> {
        let len = self.int()? as usize;
        Some(self.take(len)?.to_vec())
    }
    fn string(&mut self) -> Option<String> {
        String::from_utf8(self.bytes()?).ok()
    }
}

fn node(reader: &mut Reader, index: u64) -> Option<Node> {
    let data = reader.bytes()?;
    let count = reader.int()?;
    let mut acl = Vec::new();
    for _ in 0..count {
        let perms = reader.int()?;
        if perms > 31 {
            return None;
        }
        acl.push(Line { perms, scheme: reader.string()?, id: reader.string()? });
    }
    let (czxid, mzxid, pzxid) = (reader.long()?, reader.long()?, reader.long()?);
    if czxid > index || mzxid > index || pzxid > index {
        return None;
    }
    Some(Node { data, acl, czxid, mzxid, pzxid, ctime: reader.long()?, mtime: reader.long()?, version: reader.int()?, cversion: reader.int()?, aversion: reader.int()?, owner: reader.long()?, made: reader.int()?, kids: 0 })
}

fn parent(path: &str) -> &str {
    match path.rfind('/') {
        Some(0) | None => "/",
        Some(at) => &path[..at],
    }
}

fn is_formed(path: &str) -> bool {
    path == "/" || (path.starts_with('/') && path[1..].split('/').all(|part| !part.is_empty() && part != "." && part != "..") && !path.contains('\0'))
}

fn decode(bytes: &[u8]) -> Option<Tree> {
    let mut reader = Reader(bytes);
    if reader.take(4)? != b"KPI1" {
        return None;
    }
    let (index, term, next) = (reader.long()?, reader.long()?, reader.long()?);
    if reader.int()? != 0 {
        return None;
    }
    let mut tree = Tree { index, term, next, nodes: BTreeMap::new() };
    let count = reader.int()?;
    let mut last = String::new();
    for at in 0..count {
        let path = reader.string()?;
        if path <= last || !is_formed(&path) {
            return None;
        }
        if at > 0 {
            tree.nodes.get_mut(parent(&path))?.kids += 1;
        }
        last.clear();
        last.push_str(&path);
        tree.nodes.insert(path, node(&mut reader, index)?);
    }
    if reader.0.is_empty() { Some(tree) } else { None }
}

fn entry(reader: &mut Reader) -> Option<Entry> {
    let (term, time) = (reader.long()?, reader.long()?);
    if reader.byte()? != 4 {
        return None;
    }
    let (session, epoch, seq) = (reader.long()?, reader.long()?, reader.long()?);
    if reader.byte()? != 3 {
        return None;
    }
    Some(Entry { term, time, session, epoch, seq, path: reader.string()?, data: reader.bytes()?, version: reader.int()? })
}

fn record(reader: &mut Reader, found: &mut Found) -> Option<()> {
    match reader.byte()? {
        1 => {
            found.term = reader.long()?;
            found.vote = reader.byte()?;
        }
        2 => found.boot = reader.long()?,
        3 => found.entries.push(entry(reader)?),
        4 => {
            let last = reader.long()?;
            found.entries.truncate(last as usize);
        }
        _ => return None,
    }
    Some(())
}

fn journal(bytes: &[u8]) -> Option<Found> {
    let mut reader = Reader(bytes);
    if reader.byte()? != 1 || reader.take(4)? != b"KPJ1" {
        return None;
    }
    let _generation = reader.long()?;
    let _node = reader.byte()?;
    let mut found = Found { image_len: reader.long()?, term: 0, vote: 0, boot: 0, entries: Vec::new() };
    while reader.byte()? == 1 {
        let len = reader.int()? as usize;
        let mut body = Reader(reader.take(len)?);
        while !body.0.is_empty() {
            record(&mut body, &mut found)?;
        }
    }
    Some(found)
}

// ---- the runs

fn status() {
    for line in fs::read_to_string("/proc/self/status").unwrap().lines() {
        if line.starts_with("VmHWM") || line.starts_with("VmRSS") {
            println!("{line}");
        }
    }
}

fn written(image: &[u8]) {
    let mut file = File::create("n1.i1").unwrap();
    file.write_all(image).unwrap();
    file.sync_data().unwrap();
    let mut made = head(2, image.len() as u64);
    put_batch(&mut made, &[]);
    made.push(0);
    let mut file = File::create("n1.j1").unwrap();
    file.write_all(&made).unwrap();
    file.sync_data().unwrap();
    println!("written");
}

fn main() {
    let word = std::env::args().nth(1).unwrap();
    let count = std::env::args().nth(2).map_or(0, |count| count.parse().unwrap());
    match word.as_str() {
        "make-image" => return make_image(count),
        "make-log" => return make_log(count),
        _ => {}
    }
    let found = journal(&fs::read("n1.j0").unwrap()).unwrap();
    println!("{} entries", found.entries.len());
    black_box((found.term, found.vote, found.boot));
    for entry in &found.entries {
        black_box((entry.term, entry.time, entry.session, entry.epoch, entry.seq, &entry.path, &entry.data, entry.version));
    }
    if word == "read" && found.image_len == 0 {
        return;
    }
    let image = fs::read("n1.i0").unwrap();
    let tree = decode(&image).unwrap();
    drop(image);
    println!("{} nodes", tree.nodes.len());
    black_box(&tree);
    match word.as_str() {
        "adopt" => status(),
        "write" => written(&encode(&tree)),
        _ => {}
    }
}
