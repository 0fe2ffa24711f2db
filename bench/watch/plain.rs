//! The same watches as the program bench_watch, in two hash maps: the connections of each path, and the paths of each
//! connection.
use std::collections::{HashMap, HashSet};

#[derive(Default)]
struct Watches {
    paths: HashMap<String, HashSet<u64>>,
    conns: HashMap<u64, HashSet<String>>,
    len: usize,
}

impl Watches {
    fn add(&mut self, path: &str, conn: u64) {
        if self.paths.entry(path.to_string()).or_default().insert(conn) {
            self.conns.entry(conn).or_default().insert(path.to_string());
            self.len += 1;
        }
    }

    fn drop_conn(&mut self, conn: u64) {
        for path in self.conns.remove(&conn).unwrap_or_default() {
            if let Some(conns) = self.paths.get_mut(&path) {
                if conns.remove(&conn) {
                    self.len -= 1;
                }
                if conns.is_empty() {
                    self.paths.remove(&path);
                }
            }
        }
    }
}

fn main() {
    let mut args = std::env::args().skip(1).map(|word| word.parse::<u64>().unwrap());
    let (count, dropped) = (args.next().unwrap(), args.next().unwrap());
    let paths = count / 10;
    let mut watches = Watches::default();
    for number in 0..count {
        watches.add(&format!("/clickhouse/tables/{}", number % paths), number / 100);
    }
    for conn in 0..dropped {
        watches.drop_conn(conn);
    }
    println!("{count} watches, {} left", watches.len);
}
