//! Certificates: one that is written while a book is planned, and the verdict on one.

use cert_checker::{Checker, Taken, Verdict};
use cert_lines::Version;
use certified_search::{Order, certified_search};
use branch_tree::Limit;
use plain_std::alloc::Global;
use plain_std::seconds;
use std::fs::File;
use std::io::{Read, Write};
use tail_book::{Book, CostTable, Outcome};
use tail_outside::{Fault, Sink};

// A file as a sink.
struct FileSink(File);

impl Sink for FileSink {
    fn put(&mut self, piece: &[u8]) -> Result<(), Fault> {
        self.0.write_all(piece).map_err(|_| Fault::Failed)
    }
}

/// Plans a book, and writes the certificate to this file.
pub fn plan(book: &Book, table: &CostTable, limit: Limit, best: bool, lean: bool, name: &str) -> Outcome {
    let order = if best { Order::LeastBound } else { Order::DepthFirst };
    let version = if lean { Version::Lean } else { Version::Full };
    let sink = FileSink(File::create(name).expect(name));
    certified_search(Global, book, table, limit, order, version, sink).found.expect("no stop")
}

// The verdict on a text, which is taken in pieces as the checker takes them.
fn verdict_on(book: &Book, mut text: impl Read) -> Verdict {
    let mut checker = Checker::new(Global, book).expect("memory");
    let mut piece = vec![0; 65_536];
    loop {
        let count = text.read(&mut piece).expect("a certificate");
        if count == 0 {
            return checker.finish().expect("memory");
        }
        if let Taken::Done(verdict) = checker.feed(&piece[..count]).expect("memory") {
            return verdict;
        }
    }
}

/// Tells the verdict on a certificate.
pub fn check(book: &Book, name: &str) {
    let begun = seconds();
    let verdict = verdict_on(book, File::open(name).expect(name));
    let ended = seconds();
    println!("{verdict:?}");
    println!("seconds {:.3} (check {:.3})", ended, ended - begun);
}
