//! Plans the tables of a folder as the planner does, and judges a certificate as the checker does.
//!
//! usage: plain FOLDER [--nodes N] [--best] [--plan] [--cert FILE [--lean]], or with three tables in place of the folder;
//! with --check FILE nothing is planned, and the certificate in this file is judged.
//! `plain repair TIMETABLE FLEET RULES PLAN` repairs a published plan, `plain quota TIMETABLE FLEET RULES QUOTAS` plans under quotas; with --why nothing is planned, and it tells what is short.
//! With TRACE=1 the events of the tree are told on standard error, each with processor seconds.

mod book;
mod certificates;
mod quotas;
mod repairs;
mod shortages;

use best_first::search_best;
use branch_marks::{Event, LogFail, TreeLog};
use branch_tree::{Limit, search};
use plain_std::alloc::Global;
use plain_std::seconds;
use tail_book::{Book, CostTable, Outcome, Plan};

// A log that wants no events, and tells those that come.
struct Trace {
    told: bool,
    events: u64,
    facts: u64,
}

impl Trace {
    fn tell(&mut self, what: &str) {
        if self.told {
            eprintln!("{:9.3} event {} facts {} {what}", seconds(), self.events, self.facts);
        }
        self.events += 1;
        self.facts = 0;
    }
}

impl TreeLog for Trace {
    fn wants_events(&self) -> bool {
        false
    }

    fn wants_labels(&self) -> bool {
        false
    }

    fn note(&mut self, event: &Event) -> Result<(), LogFail> {
        match event {
            Event::Fact(_) => self.facts += 1,
            Event::Split(pair) => self.tell(&format!("split {pair:?}")),
            Event::Hole(a) => self.tell(&format!("hole {a}")),
            Event::Stuck(k) => self.tell(&format!("stuck {k}")),
            Event::Bound => self.tell("bound"),
            _ => {}
        }
        Ok(())
    }
}

fn show_plan(book: &Book, plan: &Plan) {
    for (tail, route) in book.tails.iter().zip(plan.0.iter()) {
        let mut line = format!("{}:", String::from_utf8_lossy(tail.name.as_bytes()));
        for a in &route.0 {
            line += " ";
            line += &String::from_utf8_lossy(book.activities[*a as usize].id.as_bytes());
        }
        println!("{line}");
    }
}

fn show(book: &Book, outcome: &Outcome, with_plan: bool) {
    let plan = match outcome {
        Outcome::Optimal(plan, cost) => {
            println!("optimal {cost}");
            Some(plan)
        }
        Outcome::Infeasible => {
            println!("infeasible");
            None
        }
        Outcome::Between { plan, low, high, nodes } => {
            println!("limit {low} {high} nodes {nodes}");
            Some(plan)
        }
        Outcome::Above { low, nodes } => {
            println!("limit {low} - nodes {nodes}");
            None
        }
    };
    if let (true, Some(plan)) = (with_plan, plan) {
        show_plan(book, plan);
    }
}

struct Task {
    names: Vec<String>,
    limit: Limit,
    best: bool,
    with_plan: bool,
    certificate: Option<String>,
    lean: bool,
    checked: Option<String>,
    repaired: Option<String>,
    quotas: Option<String>,
    why: bool,
}

fn task_of(mut words: impl Iterator<Item = String>) -> Task {
    let mut task = Task {
        names: Vec::new(),
        limit: Limit::Free,
        best: false,
        with_plan: false,
        certificate: None,
        lean: false,
        checked: None,
        repaired: None,
        quotas: None,
        why: false,
    };
    while let Some(word) = words.next() {
        match word.as_str() {
            "--nodes" => task.limit = Limit::Nodes(words.next().expect("a number").parse().expect("a number")),
            "--best" => task.best = true,
            "--plan" => task.with_plan = true,
            "--cert" => task.certificate = Some(words.next().expect("a file")),
            "--lean" => task.lean = true,
            "--why" => task.why = true,
            "--check" => task.checked = Some(words.next().expect("a file")),
            _ => task.names.push(word),
        }
    }
    if task.names.len() == 5 && task.names[0] == "repair" {
        task.repaired = task.names.pop();
        task.names.remove(0);
    }
    if task.names.len() == 5 && task.names[0] == "quota" {
        task.quotas = task.names.pop();
        task.names.remove(0);
    }
    if task.names.len() == 1 {
        let folder = task.names.remove(0);
        task.names = ["timetable.csv", "fleet.csv", "rules.toml"].map(|name| format!("{folder}/{name}")).to_vec();
    }
    assert!(task.names.len() == 3, "usage: plain FOLDER [--nodes N] [--best] [--plan] [--cert FILE [--lean]] [--check FILE]");
    task
}

fn search_for(book: &Book, task: &Task) -> Outcome {
    let table = CostTable::of(Global, book).expect("memory");
    if let Some(name) = &task.certificate {
        return certificates::plan(book, &table, task.limit, task.best, task.lean, name);
    }
    let mut log = Trace {
        told: std::env::var("TRACE").is_ok_and(|value| value == "1"),
        events: 0,
        facts: 0,
    };
    let found = if task.best {
        search_best(Global, book, &table, task.limit, &mut log)
    } else {
        search(Global, book, &table, task.limit, &mut log)
    };
    found.expect("no stop")
}

fn main() {
    let task = task_of(std::env::args().skip(1));
    let texts: Vec<String> = task.names.iter().map(|name| std::fs::read_to_string(name).expect(name)).collect();
    let book = book::book_of(&texts[0], &texts[1], &texts[2]);
    if let Some(name) = &task.checked {
        certificates::check(&book, name);
        return;
    }
    if let Some(name) = &task.repaired {
        repairs::tell_repair(&book, name);
        return;
    }
    if let Some(name) = &task.quotas {
        quotas::tell_quota(&book, name);
        return;
    }
    if task.why {
        shortages::tell_shortage(&book);
        return;
    }
    let begun = seconds();
    let outcome = search_for(&book, &task);
    let ended = seconds();
    show(&book, &outcome, task.with_plan);
    println!("seconds {:.3} (search {:.3})", ended, ended - begun);
}
