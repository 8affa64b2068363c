//! Answers: the peer's and the proved library's, of the same random inputs.

use crate::ours::{self, Told};
use crate::peer::{self, Answer, Comparer, Fault, Foot, Kinds, Tally, COPY_SIZE, MAX_INPUT};
use crate::random::{add_rows, damage, draft, kinds, largest, long, noise, Draft, Random};
use std::collections::BTreeMap;
use std::time::{Duration, Instant};

/// What was compared, and what came out.
#[derive(Default)]
pub struct Tried {
    pub inputs: u64,
    pub differences: u64,
    counts: BTreeMap<(&'static str, String), u64>,
    longest_input: usize,
    most_rows: u8,
}

impl Tried {
    fn count(&mut self, what: &'static str, outcome: String) {
        self.inputs += 1;
        *self.counts.entry((what, outcome)).or_default() += 1;
    }

    fn differ(&mut self, what: &str, bytes: &[u8], more: String) {
        self.differences += 1;
        if self.differences <= 10 {
            println!("DIFFERENT {what}: file {} {more}", hex(bytes));
        }
    }

    pub fn print(&self) {
        let mut last = "";
        for ((what, outcome), count) in &self.counts {
            if *what != last {
                print!("\n  {what}:");
                last = what;
            }
            print!(" {outcome} {count}");
        }
        println!("\n  longest input shown {}, most rows {}", self.longest_input, self.most_rows);
    }
}

fn hex(bytes: &[u8]) -> String {
    bytes.iter().map(|byte| format!("{byte:02x}")).collect()
}

fn refused(fault: Fault) -> Told {
    Told { verdict: 2, number: fault.number, first: fault.first as usize, second: fault.second as usize }
}

fn wide(word: &[u8]) -> Vec<u64> {
    word.iter().map(|&symbol| symbol as u64).collect()
}

/// The file check and the listing.
fn try_file(tried: &mut Tried, what: &'static str, bytes: &[u8]) {
    let theirs = match peer::check(bytes, None) {
        Ok(_) => Told { verdict: 0, number: 0, first: 0, second: 0 },
        Err(fault) => refused(fault),
    };
    let own = ours::check(bytes);
    if own != theirs {
        tried.differ("check", bytes, format!("{theirs:?} {own:?}"));
    }
    let mut out = [b'#'; 256];
    let length = ours::list(bytes, &mut out);
    let listing = peer::list_file(bytes, false);
    if &out[..length] != listing.as_bytes() || out[length..].iter().any(|&byte| byte != b'#') {
        tried.differ("list", bytes, format!("{listing:?} {:?}", String::from_utf8_lossy(&out[..length])));
    }
    let outcome = if listing.starts_with("refused") { listing.split(' ').nth(1).unwrap_or("?") } else { "listed" };
    tried.count(what, outcome.to_string());
}

/// A new peer's comparer over the grammar of a file with foot lengths.
pub fn comparer(bytes: &[u8]) -> Comparer<Foot> {
    match peer::check(bytes, Kinds::of(&[1])) {
        Ok(view) => Comparer::new(view.names.len() as u64, view.rules()),
        Err(_) => Comparer::new(0, std::iter::empty()),
    }
}

fn try_run(tried: &mut Tried, bytes: &[u8], word: &[u8], input: &[u8]) {
    let theirs = match comparer(bytes).run(&wide(word), input) {
        Ok(Some(tally)) => Told { verdict: 0, number: 0, first: tally.numbers()[0] as usize, second: 0 },
        Ok(None) => Told { verdict: 1, number: 0, first: 0, second: 0 },
        Err(fault) => refused(fault),
    };
    let own = ours::run(bytes, word, input);
    if own != theirs {
        tried.differ(
            "run",
            bytes,
            format!("word {word:?} input {} {theirs:?} {own:?}", String::from_utf8_lossy(input)),
        );
    }
    let outcome = ["taken", "not", "refused"][theirs.verdict as usize];
    tried.count("runs", if theirs.verdict == 2 { format!("{outcome} {}", theirs.number) } else { outcome.to_string() });
}

/// Buffers that a comparison writes to.
pub struct Buffers {
    pub input: Vec<u8>,
    pub rows: Vec<u8>,
    peer_input: Vec<u8>,
    peer_rows: Vec<u8>,
}

impl Buffers {
    pub fn new() -> Buffers {
        Buffers {
            input: vec![b'#'; MAX_INPUT],
            rows: vec![b'#'; COPY_SIZE],
            peer_input: vec![0; MAX_INPUT],
            peer_rows: vec![0; COPY_SIZE],
        }
    }

    /// What the peer tells of a comparison by a new comparer, in the same form.
    pub fn peer(&mut self, bytes: &[u8], one: &[u64], two: &[u64], room: usize, rows_room: usize) -> Told {
        let mut comparer = comparer(bytes);
        let answer = match comparer.compare(one, two, &mut self.peer_input[..room]) {
            Ok(answer) => answer,
            Err(fault) => return refused(fault),
        };
        let first = match comparer.copy_rows(&mut self.peer_rows[..rows_room]) {
            Ok(length) => length,
            Err(fault) => return refused(fault),
        };
        match answer {
            Answer::Same => Told { verdict: 0, number: 0, first, second: 0 },
            Answer::Different(second) => Told { verdict: 1, number: 0, first, second },
        }
    }
}

fn try_compare(
    tried: &mut Tried,
    buffers: &mut Buffers,
    bytes: &[u8],
    one: &[u8],
    two: &[u8],
    rooms: [usize; 2],
) -> usize {
    let theirs = buffers.peer(bytes, &wide(one), &wide(two), rooms[0], rooms[1]);
    let own = ours::compare(bytes, one, two, &mut buffers.input[..rooms[0]], &mut buffers.rows[..rooms[1]]);
    let more = |why: &str| format!("{why} words {one:?} {two:?} {theirs:?} {own:?}");
    // Of the inputs that show a difference each side chooses one.
    if (Told { second: 0, ..own }) != (Told { second: 0, ..theirs }) && own.verdict != 2
        || own.verdict == 2 && own != theirs
    {
        tried.differ("compare", bytes, more("answers"));
        return 0;
    }
    let outcome = match own.verdict {
        0 if one == two => "same word".to_string(),
        0 => "same".to_string(),
        1 => "different".to_string(),
        _ => format!("refused {}", own.number),
    };
    tried.count("comparisons", outcome);
    if own.verdict == 2 {
        return 0;
    }
    if buffers.rows[..own.first] != buffers.peer_rows[..own.first] {
        tried.differ("compare", bytes, more("rows"));
    }
    tried.most_rows = tried.most_rows.max(buffers.rows[0]);
    if own.verdict == 0 {
        return 0;
    }
    tried.longest_input = tried.longest_input.max(own.second);
    let mut judge = comparer(bytes);
    for (input, whose) in [(&buffers.input[..own.second], "ours"), (&buffers.peer_input[..theirs.second], "theirs")] {
        let by_one = judge.run(&wide(one), input).expect("a short input").map(Tally::numbers);
        let by_two = judge.run(&wide(two), input).expect("a short input").map(Tally::numbers);
        if by_one == by_two {
            tried.differ("compare", bytes, more(whose));
        }
    }
    own.second
}

/// For each symbol the smallest one that is the same, if the file is listed.
fn smallest(bytes: &[u8]) -> Vec<u8> {
    let listing = peer::list_file(bytes, false);
    if listing.starts_with("refused") {
        return Vec::new();
    }
    let place = |name: &u8| bytes[1..].iter().position(|other| other == name).expect("a name") as u8;
    listing.lines().map(|line| place(line.as_bytes().last().expect("a name"))).collect()
}

/// Words, mostly short and of the grammar.
fn words(random: &mut Random, count: usize, smallest: &[u8]) -> [Vec<u8>; 2] {
    let stray = random.one_in(50) as usize;
    let word = |random: &mut Random| {
        let length = match random.below(20) {
            0 => 0,
            1 => 5 + random.below(5),
            2..=9 => 1,
            _ => 1 + random.below(4),
        };
        random.word(length, count.max(1) + stray)
    };
    let one = word(random);
    let mut two = word(random);
    // Often one symbol in place of another.
    if !one.is_empty() && random.one_in(3) {
        two = one.clone();
        let at = random.below(two.len());
        two[at] = random.below(count.max(1)) as u8;
    }
    // Often a word that is the same: the same symbols in another order, or others that are the same.
    if !one.is_empty() && random.one_in(4) {
        two = one.clone();
        for _ in 0..random.below(3) {
            let (at, to) = (random.below(two.len()), random.below(two.len()));
            two.swap(at, to);
        }
        for symbol in &mut two {
            let same: Vec<usize> = match smallest.get(*symbol as usize) {
                Some(of) => (0..smallest.len()).filter(|&other| smallest[other] == *of).collect(),
                None => continue,
            };
            *symbol = same[random.below(same.len())] as u8;
        }
    }
    [one, two]
}

fn try_calls(tried: &mut Tried, random: &mut Random, buffers: &mut Buffers, draft: &Draft) {
    let mut bytes = draft.bytes();
    if random.one_in(30) {
        damage(random, &mut bytes);
    }
    let smallest = smallest(&bytes);
    for _ in 0..3 {
        let [one, two] = words(random, draft.count, &smallest);
        let rooms = match random.below(200) {
            0 => [MAX_INPUT - 1 - random.below(MAX_INPUT), COPY_SIZE],
            1 => [MAX_INPUT, random.below(COPY_SIZE)],
            _ => [MAX_INPUT, COPY_SIZE],
        };
        let shown = try_compare(tried, buffers, &bytes, &one, &two, rooms);
        let mut input = if shown > 0 && random.one_in(2) {
            buffers.input[..shown].to_vec()
        } else {
            draft.input(random, &one, 200)
        };
        match random.below(12) {
            0 => input.push(b'A'),
            1 => input.truncate(random.below(input.len() + 1)),
            2 if !input.is_empty() => {
                let at = random.below(input.len());
                input[at] = random.below(256) as u8;
            }
            3 if random.one_in(30) => input.resize(MAX_INPUT - 1 + random.below(3), b'A'),
            _ => {}
        }
        try_run(tried, &bytes, &one, &input);
        if shown > 0 {
            try_run(tried, &bytes, &two, &input);
        }
    }
}

/// Compares answers of so many inputs, or for so long.
pub fn compare_answers(seed: u64, inputs: u64, time: Duration) -> Tried {
    let mut random = Random::new(seed);
    let mut tried = Tried::default();
    let mut buffers = Buffers::new();
    let begin = Instant::now();
    while tried.inputs < inputs && begin.elapsed() < time && tried.differences < 10 {
        for _ in 0..4 {
            try_file(&mut tried, "random bytes", &noise(&mut random));
        }
        let kinds = kinds(&mut random);
        let mut any = draft(&mut random, kinds);
        if random.one_in(2) {
            add_rows(&mut random, &mut any);
        }
        let bytes = any.bytes();
        try_file(&mut tried, "legal files", &bytes);
        for _ in 0..5 {
            let mut damaged = bytes.clone();
            damage(&mut random, &mut damaged);
            try_file(&mut tried, "damaged files", &damaged);
        }
        if random.one_in(20) {
            let mut large = largest();
            damage(&mut random, &mut large);
            try_file(&mut tried, "damaged large files", &large);
        }
        for _ in 0..2 {
            let foot = if random.one_in(400) { long(&mut random) } else { draft(&mut random, &[1]) };
            if comparer(&foot.bytes()).fault().is_none() || random.one_in(10) {
                try_calls(&mut tried, &mut random, &mut buffers, &foot);
            }
        }
    }
    println!(
        "answers: seed {seed}, {} inputs in {:.0} s, {} differences",
        tried.inputs,
        begin.elapsed().as_secs_f64(),
        tried.differences
    );
    tried
}
