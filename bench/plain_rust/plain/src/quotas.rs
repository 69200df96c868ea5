//! Searches under quotas.

use plain_std::alloc::Global;
use plain_std::seconds;
use quota_rows::Quota;
use quota_search::{QuotaOutcome, search_quotas};
use tail_book::{Book, CostTable};

use crate::book::moment;

// The quotas of a table that is written as it should be.
fn quotas_of(book: &Book, text: &str) -> Vec<Quota> {
    let airport_of = |name: &str| book.rules.airports.iter().position(|it| it.name.as_bytes() == name.as_bytes()).expect(name) as u32;
    text.lines()
        .skip(1)
        .map(|line| {
            let fields: Vec<&str> = line.split(',').collect();
            Quota {
                airport: airport_of(fields[0]),
                day: moment(&format!("{}T00:00", fields[1])) / 1440,
                below: fields[2].parse().expect("minutes"),
                most: fields[3].parse().expect("a number"),
            }
        })
        .collect()
}

/// Searches under the quotas in a file, and tells what came of it.
pub fn tell_quota(book: &Book, name: &str) {
    let text = std::fs::read_to_string(name).expect(name);
    let quotas = quotas_of(book, &text);
    let table = CostTable::of(Global, book).expect("memory");
    let begun = seconds();
    let found = search_quotas(Global, book, &table, &quotas).expect("memory");
    let ended = seconds();
    match found {
        QuotaOutcome::Optimal(plan, cost) => {
            println!("optimal {cost}");
            crate::show_plan(book, &plan);
        }
        QuotaOutcome::Infeasible => println!("infeasible"),
    }
    println!("seconds {:.3} (quota {:.3})", ended, ended - begun);
}
