//! The same lines on a `BTreeMap` of structs, without any overlay: each change is made at once, a
//! commit counts, and a truncation is answered and takes nothing back. It prints the same kind of
//! lines, so that reading and printing are in both times.

use std::collections::{BTreeMap, BTreeSet};
use std::fmt::Write as _;
use std::io::{Read, Write};

struct Acl {
    perms: u32,
    scheme: String,
    id: String,
}

#[derive(Default)]
struct Node {
    data: Vec<u8>,
    acl: Vec<Acl>,
    czxid: u64,
    mzxid: u64,
    pzxid: u64,
    ctime: u64,
    mtime: u64,
    version: u32,
    cversion: u32,
    aversion: u32,
    owner: u64,
    created: u32,
    children: BTreeSet<String>,
}

fn open_acl() -> Vec<Acl> {
    vec![Acl { perms: 31, scheme: "world".to_string(), id: "anyone".to_string() }]
}

fn allows(acl: &[Acl], perm: u32) -> bool {
    acl.iter().any(|a| a.perms & perm != 0 && a.scheme == "world" && a.id == "anyone")
}

fn is_path(path: &str) -> bool {
    path == "/"
        || path.starts_with('/')
            && path[1..].split('/').all(|part| !part.is_empty() && part != "." && part != "..")
            && !path.contains('\0')
}

fn parent(path: &str) -> &str {
    match path.rfind('/') {
        None | Some(0) => "/",
        Some(at) => &path[..at],
    }
}

fn name(path: &str) -> &str {
    path.rsplit('/').next().unwrap_or("")
}

fn bytes(word: &str) -> Vec<u8> {
    if word == "-" {
        return Vec::new();
    }
    (0..word.len() / 2).map(|k| u8::from_str_radix(&word[2 * k..2 * k + 2], 16).unwrap_or(0)).collect()
}

#[derive(Default)]
struct Store {
    nodes: BTreeMap<String, Node>,
    /// The paths that each live session owns.
    sessions: BTreeMap<u64, BTreeSet<String>>,
    opened: u64,
    time: u64,
    applied: u64,
    last: u64,
}

impl Store {
    fn create(&mut self, session: u64, asked: &str, flags: u32, data: Vec<u8>) -> Result<String, i32> {
        let sequential = flags & 2 != 0;
        let whole = |number: u32| if sequential { format!("{asked}{number:010}") } else { asked.to_string() };
        if !is_path(&whole(0)) {
            return Err(-8);
        }
        if !self.sessions.contains_key(&session) {
            return Err(-112);
        }
        let first = whole(0);
        let up = parent(&first);
        let above = self.nodes.get(up).ok_or(-101)?;
        if !allows(&above.acl, 4) {
            return Err(-102);
        }
        if above.owner != 0 {
            return Err(-108);
        }
        let path = whole(above.created);
        if self.nodes.contains_key(&path) {
            return Err(-110);
        }
        let index = self.last + 1;
        if let Some(above) = self.nodes.get_mut(up) {
            above.cversion += 1;
            above.created += 1;
            above.pzxid = index;
            above.children.insert(name(&path).to_string());
        }
        let owner = if flags & 1 != 0 { session } else { 0 };
        if let Some(owned) = self.sessions.get_mut(&owner) {
            owned.insert(path.clone());
        }
        let node = Node { data, acl: open_acl(), owner, czxid: index, mzxid: index, pzxid: index, ctime: self.time, mtime: self.time, ..Node::default() };
        self.nodes.insert(path.clone(), node);
        Ok(path)
    }

    /// Ends a session: each node that it owns goes, and then the session.
    fn close(&mut self, session: u64) -> Result<(), i32> {
        let owned = self.sessions.remove(&session).ok_or(-112)?;
        for path in owned {
            self.remove(&path);
        }
        Ok(())
    }

    fn delete(&mut self, path: &str) -> Result<(), i32> {
        if !is_path(path) {
            return Err(-8);
        }
        let node = self.nodes.get(path).ok_or(-101)?;
        let above = self.nodes.get(parent(path)).ok_or(-101)?;
        if !allows(&above.acl, 8) {
            return Err(-102);
        }
        if !node.children.is_empty() {
            return Err(-111);
        }
        let owner = node.owner;
        if let Some(owned) = self.sessions.get_mut(&owner) {
            owned.remove(path);
        }
        self.remove(path);
        Ok(())
    }

    fn remove(&mut self, path: &str) {
        let index = self.last + 1;
        if let Some(above) = self.nodes.get_mut(parent(path)) {
            above.cversion += 1;
            above.pzxid = index;
            above.children.remove(name(path));
        }
        self.nodes.remove(path);
    }

    fn set(&mut self, path: &str, data: Vec<u8>) -> Result<&Node, i32> {
        if !is_path(path) {
            return Err(-8);
        }
        let node = self.nodes.get_mut(path).ok_or(-101)?;
        if !allows(&node.acl, 2) {
            return Err(-102);
        }
        node.data = data;
        node.version += 1;
        node.mzxid = self.last + 1;
        node.mtime = self.time;
        Ok(node)
    }

    fn line(&mut self, line: &str, out: &mut String) {
        let words: Vec<&str> = line.split(' ').collect();
        let index = self.last + 1;
        match words[..] {
            ["open", _, _] => {
                self.last = index;
                self.opened += 1;
                self.sessions.insert(self.opened, BTreeSet::new());
                let _ = write!(out, "pre {index} ok session={}", self.opened);
            }
            ["close", session] => {
                match self.close(session.parse().unwrap_or(0)) {
                    Ok(()) => write!(out, "pre {index} ok"),
                    Err(code) => write!(out, "pre {index} err={code}"),
                }
                .unwrap_or(());
                self.last = index;
            }
            ["create", session, path, flags, data] => {
                match self.create(session.parse().unwrap_or(0), path, flags.parse().unwrap_or(0), bytes(data)) {
                    Ok(path) => write!(out, "pre {index} ok path={path}"),
                    Err(code) => write!(out, "pre {index} err={code}"),
                }
                .unwrap_or(());
                self.last = index;
            }
            ["delete", _, path, _] => {
                match self.delete(path) {
                    Ok(()) => write!(out, "pre {index} ok"),
                    Err(code) => write!(out, "pre {index} err={code}"),
                }
                .unwrap_or(());
                self.last = index;
            }
            ["set", _, path, data, _] => {
                match self.set(path, bytes(data)) {
                    Ok(n) => write!(
                        out,
                        "pre {index} ok cz={} mz={} pz={} ct={} mt={} v={} cv={} av={} own={} len={} kids={}",
                        n.czxid, n.mzxid, n.pzxid, n.ctime, n.mtime, n.version, n.cversion, n.aversion, n.owner, n.data.len(), n.children.len()
                    ),
                    Err(code) => write!(out, "pre {index} err={code}"),
                }
                .unwrap_or(());
                self.last = index;
            }
            ["commit"] => {
                if self.applied < self.last {
                    self.applied += 1;
                    let _ = write!(out, "done {} ok", self.applied);
                } else {
                    out.push_str("done none");
                }
            }
            ["truncate", k] => {
                let _ = write!(out, "cut {k}");
                self.last = k.parse().unwrap_or(self.last);
            }
            ["kids", path] => match self.nodes.get(path) {
                None => out.push_str("kids none"),
                Some(node) => {
                    let _ = write!(out, "kids {}", node.children.len());
                    for child in &node.children {
                        out.push(' ');
                        out.push_str(child);
                    }
                }
            },
            _ => out.push_str("bad line"),
        }
        out.push('\n');
    }
}

fn main() -> std::io::Result<()> {
    let mut text = String::new();
    std::io::stdin().read_to_string(&mut text)?;
    let mut store = Store::default();
    store.nodes.insert("/".to_string(), Node { acl: open_acl(), ..Node::default() });
    let mut output = std::io::stdout().lock();
    let mut out = String::new();
    for line in text.lines() {
        out.clear();
        store.line(line, &mut out);
        output.write_all(out.as_bytes())?;
    }
    Ok(())
}
