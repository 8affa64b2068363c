//! How cost grows with symbols, letters, norm and rows.

use crate::answers::Buffers;
use crate::random::Draft;
use crate::speed::{check_times, compare_times, list_times, run_times};

/// So many symbols in a chain, above a tower that gives them the norm 1, 5, 21 or 64, with so many
/// letters. The last one differs from the others.
pub fn chain(tower: u8, symbols: u8, letters: u8) -> Draft {
    let mut file = Draft::new((tower + symbols) as usize, &[1]);
    for at in 0..letters {
        let letter = b'A' + at;
        for symbol in 0..tower + symbols {
            let below = symbol.min(tower);
            let length = [0, 4, 4, 3][below as usize];
            let mut word = vec![below.saturating_sub(1); length];
            if symbol >= tower && at > 0 && at + 1 == letters {
                word = vec![(symbol + 1).min(tower + symbols - 1)];
            }
            let number = symbol + 1 == tower + symbols && at + 1 == letters;
            file.rule(symbol, letter, number as u32, &word);
        }
    }
    file
}

fn head(title: &str) {
    let columns = ["check", "take up", "list", "compare"];
    print!("\n{title:<18}");
    for column in columns {
        print!(" {:>10} {:>10} {:>6}", format!("{column} peer"), "ours", "ratio");
    }
    println!();
}

fn row(value: usize, file: &Draft, one: u8, two: u8) {
    let bytes = file.bytes();
    print!("{value:<18}");
    let compared = compare_times(&mut Buffers::new(), &bytes, &[one], &[two]);
    for times in [check_times(&bytes), run_times(&bytes, &[], &[]), list_times(&bytes, true), compared] {
        print!(" {:>12.0} {:>10.0} {:>6.2}", times[0], times[1], times[1] / times[0]);
    }
    println!();
}

pub fn print() {
    println!("\ngrowth, in nanoseconds; all make the inputs of each \"different\"");
    head("symbols");
    for symbols in [4, 8, 16, 32] {
        row(symbols, &chain(0, symbols as u8, 2), 0, 1);
    }
    head("letters");
    for letters in [2, 4, 8, 16, 26] {
        row(letters, &chain(0, 8, letters as u8), 0, 1);
    }
    head("norm");
    for (tower, norm) in [(0, 1), (1, 5), (2, 21), (3, 64)] {
        row(norm, &chain(tower, 8, 4), tower, tower + 1);
    }
    head("rows");
    for rows in [0, 8, 16, 31] {
        let mut file = chain(0, 32, 2);
        file.rules.get_mut(&(31, b'B')).expect("a rule").numbers = [0; 2];
        for symbol in 32 - rows as u8..32 {
            if symbol > 0 {
                file.rows.insert(symbol, vec![if rows == 31 { 0 } else { 31 - rows as u8 }]);
            }
        }
        row(rows, &file, 0, 1);
    }
}
