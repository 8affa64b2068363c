//! `peer list`, `peer replay`, and `peer time`.

mod peer;

use peer::{check, list_file, Answer, Comparer, Fault, Kinds, Rule, Tally, FILE_SIZE};
use std::collections::BTreeMap;
use std::io::{self, BufRead, BufWriter, Read, Write};

fn main() -> io::Result<()> {
    let arguments: Vec<String> = std::env::args().skip(1).collect();
    let arguments: Vec<&str> = arguments.iter().map(String::as_str).collect();
    match arguments[..] {
        ["list"] => io::stdout().write_all(list_file(&file_bytes()?, false).as_bytes()),
        ["list-shown"] => io::stdout().write_all(list_file(&file_bytes()?, true).as_bytes()),
        ["time", times] => time(times, false),
        ["time-shown", times] => time(times, true),
        ["replay"] => {
            let mut player = Player::default();
            let mut output = BufWriter::new(io::stdout().lock());
            for line in io::stdin().lock().lines() {
                writeln!(output, "{}", player.answer(&line?))?;
            }
            output.flush()
        }
        _ => {
            eprintln!("peer list < FILE | peer list-shown < FILE | peer replay < SCRIPT | peer time N < FILE | peer time-shown N < FILE");
            std::process::exit(2)
        }
    }
}

/// One byte more than a file has is enough to see that something follows.
fn file_bytes() -> io::Result<Vec<u8>> {
    let mut bytes = Vec::new();
    io::stdin().lock().take(FILE_SIZE as u64 + 1).read_to_end(&mut bytes)?;
    Ok(bytes)
}

/// Lists a file many times and prints the microseconds that one listing takes.
fn time(times: &str, shown: bool) -> io::Result<()> {
    let times: u32 = times.parse().unwrap_or(1).max(1);
    let bytes = file_bytes()?;
    let begin = std::time::Instant::now();
    for _ in 0..times {
        std::hint::black_box(list_file(std::hint::black_box(&bytes), shown));
    }
    println!("{:.2}", begin.elapsed().as_secs_f64() * 1e6 / times as f64);
    Ok(())
}

// Comparers of any tally

trait Bench {
    fn run(&mut self, word: &[u64], input: &[u8]) -> Result<Option<[u32; 2]>, Fault>;
    fn compare(&mut self, one: &[u64], two: &[u64], out: &mut [u8]) -> Result<Answer, Fault>;
    fn offer(&mut self, bytes: &[u8]) -> Result<(), Fault>;
    fn clear(&mut self);
    fn copy_rows(&self, out: &mut [u8]) -> Result<usize, Fault>;
    fn write_file(&self, names: &[u8], out: &mut [u8]) -> Result<usize, Fault>;
    fn kinds(&self) -> usize;
}

impl<T: Tally> Bench for Comparer<T> {
    fn run(&mut self, word: &[u64], input: &[u8]) -> Result<Option<[u32; 2]>, Fault> {
        Ok(Comparer::run(self, word, input)?.map(T::numbers))
    }
    fn compare(&mut self, one: &[u64], two: &[u64], out: &mut [u8]) -> Result<Answer, Fault> {
        Comparer::compare(self, one, two, out)
    }
    fn offer(&mut self, bytes: &[u8]) -> Result<(), Fault> {
        Comparer::offer(self, bytes)
    }
    fn clear(&mut self) {
        Comparer::clear(self)
    }
    fn copy_rows(&self, out: &mut [u8]) -> Result<usize, Fault> {
        Comparer::copy_rows(self, out)
    }
    fn write_file(&self, names: &[u8], out: &mut [u8]) -> Result<usize, Fault> {
        Comparer::write_file(self, names, out)
    }
    fn kinds(&self) -> usize {
        T::KINDS.list().len()
    }
}

/// A grammar of any make. The rules stand by symbol and letter. Counts and symbols are bytes.
struct Book {
    count: u64,
    /// None for bytes that are no file: a grammar without symbols fits any tally.
    kinds: Option<Kinds>,
    rules: Vec<Rule>,
}

impl Book {
    fn of_file(bytes: &[u8]) -> Book {
        match check(bytes, None) {
            Err(_) => Book { count: 0, kinds: None, rules: Vec::new() },
            Ok(view) => {
                Book { count: view.names.len() as u64, kinds: Kinds::of(view.kinds), rules: view.rules().collect() }
            }
        }
    }

    fn of_list(count: &str, kinds: &str, records: &str) -> Option<Book> {
        let count = byte(count)?;
        let kinds = parse_kinds(kinds)?;
        // The first record for a symbol and a letter is the rule.
        let mut rules = BTreeMap::new();
        if records != "-" {
            for record in records.split(';') {
                let rule = parse_record(record, kinds.list().len())?;
                if rule.symbol < count && rule.letter.is_ascii_uppercase() {
                    rules.entry((rule.symbol, rule.letter)).or_insert(rule);
                }
            }
        }
        Some(Book { count, kinds: Some(kinds), rules: rules.into_values().collect() })
    }

    /// None if the tallies are not one.
    fn twin(mut self, right: Book) -> Option<Book> {
        if let (Some(left), Some(right)) = (self.kinds, right.kinds) {
            if left != right {
                return None;
            }
        }
        // Symbols are bytes: what would pass 255 is 255, which is below no count. A symbol that the
        // left grammar has not is none of the right one's either.
        let shift = self.count;
        for rule in &mut self.rules {
            rule.word = rule.word.map(|symbol| if symbol < shift { symbol } else { 255 });
        }
        let up = |symbol: u64| (symbol + shift).min(255);
        let lifted = right.rules.iter().map(|rule| Rule { symbol: up(rule.symbol), word: rule.word.map(up), ..*rule });
        self.rules.extend(lifted.filter(|rule| rule.symbol < 255));
        self.count = up(right.count);
        self.kinds = self.kinds.or(right.kinds);
        Some(self)
    }

    fn comparer(&self) -> Box<dyn Bench> {
        let kinds = self.kinds.unwrap_or(Kinds::NONE);
        let rules = || self.rules.iter().copied();
        with_tally!(kinds.list(), T => Box::new(Comparer::<T>::new(self.count, rules())))
    }
}

// Scripts

#[derive(Default)]
struct Player {
    bench: Option<Box<dyn Bench>>,
    /// The twins that are begun, each with its left grammar if that is there.
    twins: Vec<Option<Book>>,
}

impl Player {
    fn answer(&mut self, line: &str) -> String {
        self.answered(line).unwrap_or_else(|| "malformed".to_string())
    }

    fn answered(&mut self, line: &str) -> Option<String> {
        let parts: Vec<&str> = line.split(' ').collect();
        match parts[..] {
            ["case", _] => return Some(line.to_string()),
            ["grammar", "twin"] => {
                self.twins.push(None);
                return Some("ok".to_string());
            }
            ["grammar", "file", bytes] => return self.grammar(Book::of_file(&hex(bytes)?)),
            ["grammar", "list", count, kinds, records] => return self.grammar(Book::of_list(count, kinds, records)?),
            ["check", kinds, bytes] => {
                let kinds = parse_kinds(kinds)?;
                return Some(match check(&hex(bytes)?, Some(kinds)) {
                    Ok(_) => "ok".to_string(),
                    Err(fault) => refused(fault),
                });
            }
            _ => {}
        }
        if !self.twins.is_empty() {
            return None;
        }
        let bench = self.bench.as_mut()?;
        Some(match parts[..] {
            ["compare", one, two, size] => {
                let (one, two) = (parse_word(one)?, parse_word(two)?);
                let mut out = buffer(size)?;
                match bench.compare(&one, &two, &mut out) {
                    Ok(Answer::Same) => format!("same {}", rows(&**bench)),
                    Ok(Answer::Different(length)) => {
                        let input = String::from_utf8_lossy(&out[..length]);
                        format!("different {} {}", rows(&**bench), if length == 0 { "-" } else { &input })
                    }
                    Err(fault) => format!("{} {}", refused(fault), rows(&**bench)),
                }
            }
            ["offer", bytes] => match bench.offer(&hex(bytes)?) {
                Ok(()) => format!("ok {}", rows(&**bench)),
                Err(fault) => format!("{} {}", refused(fault), rows(&**bench)),
            },
            ["clear"] => {
                bench.clear();
                rows(&**bench)
            }
            ["run", word, input] => match bench.run(&parse_word(word)?, &parse_input(input)?) {
                Ok(None) => "not".to_string(),
                Ok(Some(_)) if bench.kinds() == 0 => "taken -".to_string(),
                Ok(Some(numbers)) => {
                    let numbers = numbers[..bench.kinds()].iter().map(|number| format!(" {number}"));
                    format!("taken{}", numbers.collect::<String>())
                }
                Err(fault) => refused(fault),
            },
            ["copy", size] => {
                let mut out = buffer(size)?;
                match bench.copy_rows(&mut out) {
                    Ok(length) => to_hex(&out[..length]),
                    Err(fault) => refused(fault),
                }
            }
            ["write", names, size] => {
                let mut out = buffer(size)?;
                match bench.write_file(&hex(names)?, &mut out) {
                    Ok(length) => to_hex(&out[..length]),
                    Err(fault) => refused(fault),
                }
            }
            _ => return None,
        })
    }

    /// Takes a grammar up, or puts it into the twin that was begun last.
    fn grammar(&mut self, mut book: Book) -> Option<String> {
        while let Some(left) = self.twins.pop() {
            match left {
                None => {
                    self.twins.push(Some(book));
                    return Some("ok".to_string());
                }
                Some(left) => book = left.twin(book)?,
            }
        }
        self.bench = Some(book.comparer());
        Some("ok".to_string())
    }
}

fn refused(fault: Fault) -> String {
    format!("refused {} {} {} {}", fault.layer(), fault.number, fault.first, fault.second)
}

fn rows(bench: &dyn Bench) -> String {
    let mut out = [0; peer::COPY_SIZE];
    match bench.copy_rows(&mut out) {
        Ok(length) => to_hex(&out[..length]),
        Err(_) => "?".to_string(),
    }
}

fn number(text: &str) -> Option<u64> {
    text.bytes().all(|byte| byte.is_ascii_digit()).then(|| text.parse().ok())?
}

fn byte(text: &str) -> Option<u64> {
    number(text).filter(|&number| number < 256)
}

fn buffer(size: &str) -> Option<Vec<u8>> {
    Some(vec![0; usize::try_from(number(size)?).ok().filter(|&size| size <= 1 << 24)?])
}

fn hex(text: &str) -> Option<Vec<u8>> {
    if text == "-" {
        return Some(Vec::new());
    }
    if text.is_empty() || text.len() % 2 == 1 {
        return None;
    }
    let digits: Option<Vec<u32>> = text.chars().map(|digit| digit.to_digit(16)).collect();
    Some(digits?.chunks_exact(2).map(|two| (two[0] * 16 + two[1]) as u8).collect())
}

fn to_hex(bytes: &[u8]) -> String {
    if bytes.is_empty() {
        return "-".to_string();
    }
    bytes.iter().map(|byte| format!("{byte:02x}")).collect()
}

fn parse_kinds(text: &str) -> Option<Kinds> {
    if text == "-" {
        return Some(Kinds::NONE);
    }
    let kinds: Vec<u8> = text.bytes().map(|byte| byte.wrapping_sub(b'0')).collect();
    let good = !kinds.is_empty() && kinds.iter().all(|kind| (1..=3).contains(kind));
    good.then(|| Kinds::of(&kinds))?
}

fn parse_word(text: &str) -> Option<Vec<u64>> {
    if text == "-" {
        return Some(Vec::new());
    }
    text.split('.').map(byte).collect()
}

fn parse_input(text: &str) -> Option<Vec<u8>> {
    if text == "-" {
        return Some(Vec::new());
    }
    if let Some(digits) = text.strip_prefix("0x") {
        return hex(digits);
    }
    if let Some((letter, times)) = text.split_once('*') {
        let times = number(times).filter(|&times| times <= 1 << 24)?;
        return (letter.len() == 1).then(|| vec![letter.as_bytes()[0]; times as usize]);
    }
    Some(text.as_bytes().to_vec())
}

fn parse_record(text: &str, kinds: usize) -> Option<Rule> {
    let fields: Vec<&str> = text.split(',').collect();
    let [symbol, letter, length, symbols, numbers @ ..] = &fields[..] else { return None };
    if numbers.len() != kinds {
        return None;
    }
    let symbols = parse_word(symbols)?;
    let mut rule = Rule {
        symbol: byte(symbol)?,
        letter: byte(letter)? as u8,
        length: number(length)?,
        word: [255; 4],
        numbers: [0; 2],
    };
    for (slot, symbol) in rule.word.iter_mut().zip(symbols) {
        *slot = symbol;
    }
    for (slot, text) in rule.numbers.iter_mut().zip(numbers) {
        *slot = u32::try_from(number(text)?).ok()?;
    }
    Some(rule)
}

#[cfg(test)]
mod tests;
