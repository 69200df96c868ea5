//! What is short where no plan is legal, or what a fullest plan leaves out, told with its seconds.

use fullest_plan::fewest_left_out;
use plain_std::alloc::Global;
use plain_std::seconds;
use shortage_finder::find_shortage;
use tail_book::Book;

fn names(book: &Book, list: &[u32]) -> String {
    list.iter().map(|a| format!(" {}", String::from_utf8_lossy(book.activities[*a as usize].id.as_bytes()))).collect()
}

pub fn tell_shortage(book: &Book) {
    let begun = seconds();
    match find_shortage(Global, book).expect("memory") {
        Some(found) => {
            println!("{:?} {} {}", found.cause, found.asked.len(), found.brought.len());
            println!("asked{}", names(book, &found.asked));
            println!("brought{}", names(book, &found.brought));
            println!("at most {}", found.mosts.iter().sum::<i64>());
        }
        None => {
            println!("nothing short, seconds {:.3}", seconds() - begun);
            let left = fewest_left_out(Global, book).expect("memory");
            println!("uncovered {}{}", left.len(), names(book, &left));
        }
    }
    println!("seconds {:.3}", seconds() - begun);
}
