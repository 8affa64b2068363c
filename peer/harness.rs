//! Compares the peer with the proved library, in answers and in speed.
//!
//!     harness answers SEED INPUTS SECONDS
//!     harness speed DATA SEED SECONDS     the seconds are for the search of slow comparisons
//!     harness search DATA SEED SECONDS    searches longer, and keeps what it finds in DATA

mod answers;
mod growth;
mod ours;
#[allow(dead_code)]
mod peer;
mod random;
mod search;
mod speed;

use std::time::Duration;

fn main() {
    let arguments: Vec<String> = std::env::args().skip(1).collect();
    let arguments: Vec<&str> = arguments.iter().map(String::as_str).collect();
    let number = |text: &str| text.parse::<u64>().expect("a number");
    match arguments[..] {
        ["answers", seed, inputs, seconds] => {
            let tried = answers::compare_answers(number(seed), number(inputs), Duration::from_secs(number(seconds)));
            tried.print();
            std::process::exit((tried.differences > 0) as i32);
        }
        ["speed", data, seed, seconds] => {
            speed::print(data, number(seed), Duration::from_secs(number(seconds)));
            growth::print();
        }
        ["search", data, seed, seconds] => search::keep(data, number(seed), Duration::from_secs(number(seconds))),
        _ => {
            eprintln!("harness answers SEED INPUTS SECONDS | harness speed DATA SEED SECONDS | harness search DATA SEED SECONDS");
            std::process::exit(2);
        }
    }
}
