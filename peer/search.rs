//! A search for slow comparisons: chains of symbols of one norm, random grammars, and changes to the slowest so far.

use crate::answers::{comparer, Buffers};
use crate::growth;
use crate::ours;
use crate::peer::{COPY_SIZE, MAX_INPUT};
use crate::random::{draft, long, powers, Draft, Random};
use crate::speed::now;
use std::time::{Duration, Instant};

#[derive(Clone, Default)]
pub struct Case {
    pub draft: Draft,
    pub one: Vec<u8>,
    pub two: Vec<u8>,
}

/// What is sought: the most time that ours takes, or the most by the peer's.
#[derive(Clone, Copy, PartialEq)]
pub enum Aim {
    Time,
    Ratio,
}

/// A chain, and two words.
fn chain(random: &mut Random) -> Case {
    let draft = if random.one_in(4) { powers(random) } else { long(random) };
    let mut case = Case { draft, ..Case::default() };
    new_words(random, &mut case);
    case
}

/// Words with equally many symbols, of the chain if there is one.
fn new_words(random: &mut Random, case: &mut Case) {
    let count = case.draft.count;
    let low = if count == 32 { 3 } else { 0 };
    let symbol = |random: &mut Random| (low + random.below(count - low)) as u8;
    let length = if random.one_in(2) { 8 } else { 1 + random.below(8) };
    case.one = vec![symbol(random); length];
    case.two = case.one.clone();
    if random.one_in(2) {
        let next = (case.one[0] as usize + 1).min(count - 1) as u8;
        case.two = vec![if random.one_in(2) { next } else { symbol(random) }; length];
    } else {
        let at = if random.one_in(2) { length - 1 } else { random.below(length) };
        case.two[at] = symbol(random);
    }
}

fn change(random: &mut Random, case: &mut Case) {
    for _ in 0..1 + random.below(3) {
        let places: Vec<(u8, u8)> = case.draft.rules.keys().copied().collect();
        let (symbol, letter) = places[random.below(places.len())];
        let count = case.draft.count;
        match random.below(7) {
            0 => new_words(random, case),
            1 if !case.two.is_empty() => {
                let at = random.below(case.two.len());
                case.two[at] = random.below(count) as u8;
            }
            // One place of all words at a letter.
            2 => {
                let (at, to) = (random.below(4), random.below(count) as u8);
                for (key, rule) in case.draft.rules.iter_mut() {
                    if key.1 == letter && key.0 >= 3 && letter != b'A' && rule.word.len() > at {
                        rule.word[at] = to;
                    }
                }
            }
            // A link at this letter.
            3 => {
                let (at, step) = (random.below(4), random.below(29));
                for (key, rule) in case.draft.rules.iter_mut() {
                    if key.1 == letter && key.0 >= 3 && letter != b'A' && rule.word.len() > at {
                        rule.word[at] = (3 + (key.0 as usize - 3 + step) % 29) as u8;
                    }
                }
            }
            4 => {
                let numbers = [random.below(2) as u32, 0];
                case.draft.rules.get_mut(&(symbol, letter)).expect("a rule").numbers = numbers;
            }
            5 => {
                let word = random.word(4, count);
                case.draft.rules.get_mut(&(symbol, letter)).expect("a rule").word = word;
            }
            _ => {
                let rule = case.draft.rules.get_mut(&(symbol, letter)).expect("a rule");
                if !rule.word.is_empty() {
                    let at = random.below(rule.word.len());
                    rule.word[at] = random.below(count) as u8;
                }
            }
        }
    }
}

/// The nanoseconds of one comparison, the least of a few.
fn times(case: &Case, buffers: &mut Buffers) -> Option<[f64; 2]> {
    let bytes = case.draft.bytes();
    if comparer(&bytes).fault().is_some() {
        return None;
    }
    let wide = |word: &[u8]| word.iter().map(|&symbol| symbol as u64).collect::<Vec<_>>();
    let (one, two) = (wide(&case.one), wide(&case.two));
    let mut best = [f64::MAX; 2];
    for _ in 0..3 {
        let begin = now();
        ours::compare(&bytes, &case.one, &case.two, &mut buffers.input, &mut buffers.rows);
        best[1] = best[1].min(now() - begin);
        let begin = now();
        buffers.peer(&bytes, &one, &two, MAX_INPUT, COPY_SIZE);
        best[0] = best[0].min(now() - begin);
    }
    Some(best)
}

fn worth(aim: Aim, times: [f64; 2]) -> f64 {
    match aim {
        Aim::Time => times[1],
        // Of short comparisons the ratio says little.
        Aim::Ratio if times[1] < 20_000.0 => 0.0,
        Aim::Ratio => times[1] / times[0],
    }
}

/// The slowest comparison that is found in this time, from a case or from nothing.
pub fn slowest(random: &mut Random, time: Duration, from: Option<Case>, buffers: &mut Buffers, aim: Aim) -> Case {
    let mut best = from.unwrap_or_else(|| chain(random));
    let mut most = times(&best, buffers).map_or(0.0, |times| worth(aim, times));
    let begin = Instant::now();
    while begin.elapsed() < time {
        let mut case = match random.below(8) {
            0 => chain(random),
            1 => {
                let mut case = Case { draft: draft(random, &[1]), ..Case::default() };
                if case.draft.count < 32 && random.one_in(2) {
                    continue;
                }
                new_words(random, &mut case);
                case
            }
            _ => best.clone(),
        };
        if random.one_in(2) || case.draft.count == 32 {
            if !case.draft.rules.is_empty() {
                change(random, &mut case);
            }
        }
        let Some(found) = times(&case, buffers).map(|times| worth(aim, times)) else { continue };
        if found > most && times(&case, buffers).is_some_and(|times| worth(aim, times) > most) {
            most = found;
            best = case;
        }
    }
    best
}

const KEPT: [(&str, &str, Aim); 2] =
    [("slowest", "slowest that was found", Aim::Time), ("ratio", "worst ratio that was found", Aim::Ratio)];

/// What a search begins with: what was kept, and comparisons of chains.
fn starts(folder: &str, name: &str) -> Vec<Option<Case>> {
    let mut starts = Vec::new();
    for (at, _, bytes, one, two) in kept(folder) {
        if at == name {
            starts.push(Draft::of_file(&bytes).map(|draft| Case { draft, one, two }));
        }
    }
    for name in ["chain", "deep"] {
        let draft = std::fs::read(format!("{folder}/{name}.in")).ok().and_then(|bytes| Draft::of_file(&bytes));
        starts.push(draft.map(|draft| Case { draft, one: vec![4], two: vec![5] }));
    }
    for letters in [2, 26] {
        starts.push(Some(Case { draft: growth::chain(0, 32, letters), one: vec![0], two: vec![1] }));
    }
    starts
}

/// Searches from several starts, and keeps the worst of each aim: the file, and the two words.
pub fn keep(folder: &str, seed: u64, time: Duration) {
    let mut buffers = Buffers::new();
    for (name, _, aim) in KEPT {
        let mut starts = starts(folder, name);
        starts.resize(8, None);
        let mut best: Option<(f64, Case)> = None;
        for (at, start) in starts.into_iter().chain([None]).enumerate() {
            let mut random = Random::new(seed.wrapping_add(at as u64));
            let from = if at == 8 { best.clone().map(|best| best.1) } else { start };
            let case = slowest(&mut random, time / 9, from, &mut buffers, aim);
            let Some(found) = times(&case, &mut buffers) else { continue };
            println!("{name}: start {at}, peer {:.0} ns, ours {:.0} ns", found[0], found[1]);
            if best.as_ref().is_none_or(|best| best.0 < worth(aim, found)) {
                best = Some((worth(aim, found), case));
            }
        }
        let case = best.expect("a case is found").1;
        std::fs::write(format!("{folder}/{name}.in"), case.draft.bytes()).expect("the file is written");
        let words = [&[case.one.len() as u8][..], &case.one, &case.two].concat();
        std::fs::write(format!("{folder}/{name}.words"), words).expect("the words are written");
    }
}

/// What was kept: two names, the file and the words. The words' file has the first one's length and then both.
pub fn kept(folder: &str) -> Vec<(&'static str, &'static str, Vec<u8>, Vec<u8>, Vec<u8>)> {
    KEPT.iter()
        .filter_map(|(name, title, _)| {
            let bytes = std::fs::read(format!("{folder}/{name}.in")).ok()?;
            let words = std::fs::read(format!("{folder}/{name}.words")).ok()?;
            let (one, two) = words[1..].split_at(words[0] as usize);
            Some((*name, *title, bytes, one.to_vec(), two.to_vec()))
        })
        .collect()
}
