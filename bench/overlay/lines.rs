//! Writes scripts of the store language for the benchmark of the overlay.
//!
//! `lines mixed COUNT PATHS` writes COUNT lines of creates, sets, deletes, commits and truncations
//! over PATHS paths in two levels. `lines wide COUNT` makes COUNT children under one parent, and
//! lists the ten children of its small sibling after each 1,000 of them. `lines churn COUNT` makes
//! and deletes COUNT nodes, each by another name, and commits each change; `lines churn-cut COUNT`
//! truncates every second pair of changes in place of its commits. `lines sessions COUNT` has a
//! hundred live sessions that make numbered ephemeral nodes below a hundred parents, and closes the
//! oldest session and opens another after each 100 of them, with commits between. `lines own OWNED
//! OTHERS` makes OWNED ephemeral nodes of one session beside OTHERS persistent ones, all committed;
//! `lines close OWNED OTHERS` closes that session then and commits it.

use std::io::{BufWriter, Write};

/// A linear congruential generator: the same lines come at each run.
struct Numbers(u64);

impl Numbers {
    fn below(&mut self, n: u64) -> u64 {
        self.0 = self.0.wrapping_mul(6364136223846793005).wrapping_add(1442695040888963407);
        (self.0 >> 33) % n
    }
}

/// A hundred parents, and the rest of the paths below them.
fn path(k: u64) -> String {
    if k < 100 {
        format!("/group-{k:04}")
    } else {
        format!("/group-{:04}/node-{k:08}", k % 100)
    }
}

/// Writes lines and counts them, with the indexes of the last entry and of the last committed one.
struct Script<W: Write> {
    out: W,
    lines: u64,
    last: u64,
    applied: u64,
}

impl<W: Write> Script<W> {
    fn line(&mut self, text: &str) -> std::io::Result<()> {
        self.lines += 1;
        writeln!(self.out, "{text}")
    }

    fn entry(&mut self, text: &str) -> std::io::Result<()> {
        self.last += 1;
        self.line(text)
    }

    fn commit(&mut self) -> std::io::Result<()> {
        self.applied = self.last.min(self.applied + 1);
        self.line("commit")
    }

    fn truncate(&mut self, last: u64) -> std::io::Result<()> {
        self.last = last;
        self.line(&format!("truncate {last}"))
    }
}

/// At most so many entries wait for their commit.
const WAITING: u64 = 64;

const OPEN: &str = "open 30000 00000000000000000000000000000000";

fn mixed(out: impl Write, count: u64, paths: u64) -> std::io::Result<()> {
    let mut numbers = Numbers(7);
    let mut script = Script { out, lines: 0, last: 0, applied: 0 };
    script.entry(OPEN)?;
    for k in 0..paths.min(100) {
        script.entry(&format!("create 1 {} 0 -", path(k)))?;
    }
    while script.lines < count {
        let path = path(numbers.below(paths));
        let data = numbers.below(1 << 31);
        match numbers.below(16) {
            0..=4 => script.entry(&format!("create 1 {path} 0 {data:016x}{data:016x}"))?,
            5..=8 => script.entry(&format!("set 1 {path} {data:016x}{data:016x} -1"))?,
            9 | 10 => script.entry(&format!("delete 1 {path} -1"))?,
            11..=14 => script.commit()?,
            _ => {
                // without the last entry or two, where they are not committed
                let kept = script.last.saturating_sub(numbers.below(3));
                script.truncate(kept.max(script.applied))?;
            }
        }
        if script.last - script.applied > WAITING && script.lines < count {
            script.commit()?;
        }
    }
    Ok(())
}

fn wide(out: &mut impl Write, count: u64) -> std::io::Result<()> {
    writeln!(out, "{OPEN}")?;
    writeln!(out, "create 1 /wide 0 -")?;
    writeln!(out, "create 1 /small 0 -")?;
    for k in 0..10 {
        writeln!(out, "create 1 /small/{k} 0 -")?;
    }
    for _ in 0..13 {
        writeln!(out, "commit")?;
    }
    for k in 0..count {
        writeln!(out, "create 1 /wide/{k:08} 0 -")?;
        writeln!(out, "commit")?;
        if k % 1000 == 999 {
            writeln!(out, "kids /small")?;
        }
    }
    Ok(())
}

fn churn(out: impl Write, count: u64, cuts: bool) -> std::io::Result<()> {
    let mut script = Script { out, lines: 0, last: 0, applied: 0 };
    script.entry(OPEN)?;
    script.entry("create 1 /queue 0 -")?;
    script.commit()?;
    script.commit()?;
    for k in 0..count {
        script.entry(&format!("create 1 /queue/lock-{k:010} 0 -"))?;
        if cuts && k % 2 == 1 {
            script.entry(&format!("delete 1 /queue/lock-{k:010} -1"))?;
            script.truncate(script.applied)?;
        } else {
            script.commit()?;
            script.entry(&format!("delete 1 /queue/lock-{k:010} -1"))?;
            script.commit()?;
        }
    }
    Ok(())
}

fn sessions(out: impl Write, count: u64) -> std::io::Result<()> {
    let mut numbers = Numbers(11);
    let mut script = Script { out, lines: 0, last: 0, applied: 0 };
    let live = 100;
    for _ in 0..live {
        script.entry(OPEN)?;
    }
    for k in 0..100 {
        script.entry(&format!("create 1 {} 0 -", path(k)))?;
    }
    let mut oldest = 1;
    let mut made = 0;
    while script.lines < count {
        let session = oldest + numbers.below(live);
        script.entry(&format!("create {session} /group-{:04}/lock- 3 {:016x}", numbers.below(100), session))?;
        made += 1;
        if made % 100 == 0 {
            script.entry(&format!("close {oldest}"))?;
            script.entry(OPEN)?;
            oldest += 1;
        }
        if script.last - script.applied > WAITING {
            script.commit()?;
        }
    }
    Ok(())
}

fn own(out: impl Write, owned: u64, others: u64, closes: bool) -> std::io::Result<()> {
    let mut script = Script { out, lines: 0, last: 0, applied: 0 };
    script.entry(OPEN)?;
    script.entry("create 1 /locks 0 -")?;
    script.entry("create 1 /data 0 -")?;
    for k in 0..owned {
        script.entry(&format!("create 1 /locks/lock-{k:08} 1 -"))?;
        script.commit()?;
    }
    for k in 0..others {
        script.entry(&format!("create 1 /data/node-{k:08} 0 -"))?;
        script.commit()?;
    }
    if closes {
        script.entry("close 1")?;
    }
    while script.applied < script.last {
        script.commit()?;
    }
    Ok(())
}

fn main() -> std::io::Result<()> {
    let words: Vec<String> = std::env::args().skip(1).collect();
    let number = |k: usize| words.get(k).and_then(|w| w.parse::<u64>().ok());
    let mut out = BufWriter::new(std::io::stdout().lock());
    match (words.first().map(String::as_str), number(1), number(2)) {
        (Some("mixed"), Some(count), Some(paths)) => mixed(&mut out, count, paths)?,
        (Some("wide"), Some(count), None) => wide(&mut out, count)?,
        (Some("sessions"), Some(count), None) => sessions(&mut out, count)?,
        (Some("own"), Some(owned), Some(others)) => own(&mut out, owned, others, false)?,
        (Some("close"), Some(owned), Some(others)) => own(&mut out, owned, others, true)?,
        (Some("churn"), Some(count), None) => churn(&mut out, count, false)?,
        (Some("churn-cut"), Some(count), None) => churn(&mut out, count, true)?,
        _ => {
            eprintln!("usage: lines mixed COUNT PATHS | lines wide|churn|churn-cut|sessions COUNT | lines own|close OWNED OTHERS");
            std::process::exit(2);
        }
    }
    out.flush()
}
