// A load on a plain store: a tree in a BTreeMap with the uncommitted changes made in it, an undo for each entry, and a second
// tree that the committed entries are applied to. It prints the line that `keeper load START COUNT` prints.
use std::collections::{BTreeMap, VecDeque};

#[derive(Clone, Default)]
struct Node {
    data: Vec<u8>,
    mzxid: u64,
    pzxid: u64,
    version: u32,
    cversion: u32,
    created: u32,
    kids: u32,
}

#[derive(Clone)]
enum Entry {
    Open,
    Create { path: String, numbered: bool, data: Vec<u8> },
    Set { path: String, data: Vec<u8> },
    Delete { path: String },
}

// what an entry changed: the nodes that it touched as they were before it, and whether it opened the session
#[derive(Default)]
struct Undo {
    nodes: Vec<(String, Option<Node>)>,
    opened: bool,
}

struct Tree {
    nodes: BTreeMap<String, Node>,
    open: bool,
    index: u64,
}

fn parent(path: &str) -> &str {
    match path.rfind('/') {
        Some(0) | None => "/",
        Some(at) => &path[..at],
    }
}

impl Tree {
    fn new() -> Tree {
        let mut nodes = BTreeMap::new();
        nodes.insert("/".to_string(), Node::default());
        Tree { nodes, open: false, index: 0 }
    }

    fn keep(&self, undo: &mut Undo, path: &str) {
        undo.nodes.push((path.to_string(), self.nodes.get(path).cloned()));
    }

    fn take(&mut self, entry: &Entry) -> (bool, Undo) {
        self.index += 1;
        let index = self.index;
        let mut undo = Undo::default();
        if let Entry::Open = entry {
            self.open = true;
            undo.opened = true;
            return (true, undo);
        }
        if !self.open {
            return (false, undo);
        }
        match entry {
            Entry::Open => (true, undo),
            Entry::Create { path, numbered, data } => {
                let up = parent(path).to_string();
                let Some(above) = self.nodes.get(&up) else {
                    return (false, undo);
                };
                let path = if *numbered { format!("{path}{:010}", above.created) } else { path.clone() };
                if self.nodes.contains_key(&path) {
                    return (false, undo);
                }
                self.keep(&mut undo, &up);
                self.keep(&mut undo, &path);
                let above = self.nodes.get_mut(&up).unwrap();
                above.created += 1;
                above.cversion += 1;
                above.kids += 1;
                above.pzxid = index;
                let node = Node { data: data.clone(), mzxid: index, pzxid: index, ..Node::default() };
                self.nodes.insert(path, node);
                (true, undo)
            }
            Entry::Set { path, data } => {
                if !self.nodes.contains_key(path) {
                    return (false, undo);
                }
                self.keep(&mut undo, path);
                let node = self.nodes.get_mut(path).unwrap();
                node.data = data.clone();
                node.version += 1;
                node.mzxid = index;
                (true, undo)
            }
            Entry::Delete { path } => {
                match self.nodes.get(path) {
                    Some(node) if node.kids == 0 => {}
                    _ => return (false, undo),
                }
                let up = parent(path).to_string();
                self.keep(&mut undo, path);
                self.keep(&mut undo, &up);
                self.nodes.remove(path);
                let above = self.nodes.get_mut(&up).unwrap();
                above.kids -= 1;
                above.cversion += 1;
                above.pzxid = index;
                (true, undo)
            }
        }
    }

    fn undo(&mut self, undo: Undo) {
        self.index -= 1;
        if undo.opened {
            self.open = false;
        }
        for (path, node) in undo.nodes.into_iter().rev() {
            match node {
                Some(node) => {
                    self.nodes.insert(path, node);
                }
                None => {
                    self.nodes.remove(&path);
                }
            }
        }
    }
}

fn main() {
    let words: Vec<String> = std::env::args().collect();
    let (start, count): (u64, u64) = (words[1].parse().unwrap(), words[2].parse().unwrap());
    let (mut latest, mut committed) = (Tree::new(), Tree::new());
    let mut waiting: VecDeque<(Entry, Undo)> = VecDeque::new();
    let (mut pre, mut ok, mut err, mut done, mut cut) = (0u64, 0u64, 0u64, 0u64, 0u64);
    let mut x = start;
    for line in 0..=count {
        let mut entry = None;
        if line == 0 {
            entry = Some(Entry::Open);
        } else {
            x = x.wrapping_mul(6364136223846793005).wrapping_add(1442695040888963407);
            let r = x >> 33;
            let (kind, place) = (r % 16, r / 16 % 64);
            let (path, data) = (format!("/n{place}"), x.to_be_bytes().to_vec());
            match kind {
                0..=5 => entry = Some(Entry::Create { path, numbered: false, data }),
                6..=8 => entry = Some(Entry::Set { path, data }),
                9 | 10 => entry = Some(Entry::Delete { path }),
                11 => entry = Some(Entry::Create { path: format!("{path}/s"), numbered: true, data }),
                12..=14 => {
                    if let Some((entry, _)) = waiting.pop_front() {
                        committed.take(&entry);
                        done += 1;
                    }
                }
                _ => {
                    let last = latest.index;
                    let keep = committed.index.max(last.saturating_sub(place % 4));
                    while latest.index > keep {
                        let (_, undo) = waiting.pop_back().unwrap();
                        latest.undo(undo);
                        cut += 1;
                    }
                }
            }
        }
        if let Some(entry) = entry {
            pre += 1;
            let (good, undo) = latest.take(&entry);
            if good {
                ok += 1;
            } else {
                err += 1;
            }
            waiting.push_back((entry, undo));
        }
    }
    while let Some((entry, _)) = waiting.pop_front() {
        committed.take(&entry);
        done += 1;
    }
    println!("load {start} {count} pre={pre} ok={ok} err={err} done={done} cut={cut} nodes={}", committed.nodes.len());
}
