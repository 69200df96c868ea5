//! Repairs of published plans.

use plain_std::alloc::Global;
use plain_std::seconds;
use plan_repair::{Repair, repair};
use std::collections::HashMap;
use tail_book::{Book, Name};

fn text_of(name: &Name) -> String {
    String::from_utf8_lossy(name.as_bytes()).to_string()
}

// Who flies each activity in a published plan. Of an id that stands twice the first place counts.
fn homes_of(book: &Book, published: &str) -> Vec<Option<u32>> {
    let tails: HashMap<String, u32> = book.tails.iter().map(|tail| text_of(&tail.name)).zip(0..).collect();
    let mut fliers: HashMap<&str, u32> = HashMap::new();
    for (tail, ids) in published.lines().skip(1).filter_map(|line| line.split_once(':')) {
        if let Some(k) = tails.get(tail) {
            for id in ids.split_whitespace() {
                fliers.entry(id).or_insert(*k);
            }
        }
    }
    book.activities.iter().map(|activity| fliers.get(text_of(&activity.id).as_str()).copied()).collect()
}

/// Repairs the published plan in a file, and tells what came of it.
pub fn tell_repair(book: &Book, name: &str) {
    let published = std::fs::read_to_string(name).expect(name);
    let homes = homes_of(book, &published);
    let begun = seconds();
    let found = repair(Global, book, &homes).expect("memory");
    let ended = seconds();
    match found {
        Repair::Done { moves, cost, .. } => println!("repaired {moves} {cost}"),
        Repair::Infeasible => println!("infeasible"),
    }
    println!("seconds {:.3} (repair {:.3})", ended, ended - begun);
}
