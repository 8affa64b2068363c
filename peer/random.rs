//! Random files: legal ones that are often accepted and have symbols that are the same, and damage to them.

use crate::peer::{check, Comparer, Tally, COPY_SIZE, MAX_INPUT};
use crate::with_tally;
use std::collections::BTreeMap;

pub struct Random(u64);

impl Random {
    pub fn new(seed: u64) -> Random {
        Random(seed)
    }

    pub fn next(&mut self) -> u64 {
        self.0 = self.0.wrapping_add(0x9E37_79B9_7F4A_7C15);
        let mut z = self.0;
        z = (z ^ (z >> 30)).wrapping_mul(0xBF58_476D_1CE4_E5B9);
        z = (z ^ (z >> 27)).wrapping_mul(0x94D0_49BB_1331_11EB);
        z ^ (z >> 31)
    }

    pub fn below(&mut self, bound: usize) -> usize {
        ((self.next() >> 32) * bound as u64 >> 32) as usize
    }

    pub fn one_in(&mut self, count: usize) -> bool {
        self.below(count) == 0
    }

    pub fn word(&mut self, length: usize, symbols: usize) -> Vec<u8> {
        (0..length).map(|_| self.below(symbols) as u8).collect()
    }
}

#[derive(Clone, Default)]
pub struct Rule {
    pub numbers: [u32; 2],
    pub word: Vec<u8>,
}

/// The contents of a file.
#[derive(Clone, Default)]
pub struct Draft {
    pub count: usize,
    pub kinds: Vec<u8>,
    pub rules: BTreeMap<(u8, u8), Rule>,
    pub rows: BTreeMap<u8, Vec<u8>>,
}

const NAMES: &[u8; 36] = b"bcdefgkqahijlmnoprstuvwxyz0123456789";

impl Draft {
    pub fn new(count: usize, kinds: &[u8]) -> Draft {
        Draft { count, kinds: kinds.to_vec(), ..Draft::default() }
    }

    /// The contents of a file that passes the check, without its rows.
    pub fn of_file(bytes: &[u8]) -> Option<Draft> {
        let view = check(bytes, None).ok()?;
        let mut draft = Draft::new(view.names.len(), view.kinds);
        for rule in view.rules() {
            let word = rule.word[..rule.length as usize].iter().map(|&symbol| symbol as u8).collect();
            draft.rules.insert((rule.symbol as u8, rule.letter), Rule { numbers: rule.numbers, word });
        }
        Some(draft)
    }

    pub fn rule(&mut self, symbol: u8, letter: u8, number: u32, word: &[u8]) {
        self.rules.insert((symbol, letter), Rule { numbers: [number, 0], word: word.to_vec() });
    }

    pub fn bytes(&self) -> Vec<u8> {
        let mut bytes = vec![self.count as u8];
        bytes.extend_from_slice(&NAMES[..self.count]);
        bytes.push(self.kinds.len() as u8);
        bytes.extend_from_slice(&self.kinds);
        bytes.extend_from_slice(&(self.rules.len() as u16).to_be_bytes());
        for (&(symbol, letter), rule) in &self.rules {
            bytes.extend_from_slice(&[symbol, letter]);
            for number in &rule.numbers[..self.kinds.len()] {
                bytes.extend_from_slice(&number.to_be_bytes());
            }
            bytes.push(rule.word.len() as u8);
            bytes.extend_from_slice(&rule.word);
        }
        bytes.push(self.rows.len() as u8);
        for (&symbol, word) in &self.rows {
            bytes.extend_from_slice(&[symbol, word.len() as u8]);
            bytes.extend_from_slice(word);
        }
        bytes
    }

    /// An input that the word takes, if one is found by taking rules at random.
    pub fn input(&self, random: &mut Random, word: &[u8], most: usize) -> Vec<u8> {
        let mut stack: Vec<u8> = word.iter().rev().copied().collect();
        let mut input = Vec::new();
        while let Some(symbol) = stack.pop() {
            let rules: Vec<_> = self.rules.range((symbol, 0)..=(symbol, 255)).collect();
            if rules.is_empty() || input.len() >= most {
                break;
            }
            let mut chosen = rules[random.below(rules.len())];
            if input.len() + stack.len() > most / 2 {
                chosen = *rules.iter().min_by_key(|(_, rule)| rule.word.len()).expect("there is one");
            }
            input.push(chosen.0 .1);
            stack.extend(chosen.1.word.iter().rev());
        }
        input
    }
}

fn plus(kind: u8, one: u32, two: u32) -> u32 {
    if kind == 3 {
        one ^ two
    } else {
        one.wrapping_add(two)
    }
}

fn minus(kind: u8, one: u32, two: u32) -> u32 {
    if kind == 3 {
        one ^ two
    } else {
        one.wrapping_sub(two)
    }
}

pub fn kinds(random: &mut Random) -> &'static [u8] {
    [&[][..], &[1], &[2], &[3], &[1, 2], &[1, 3], &[2, 3]][random.below(7)]
}

/// A grammar in which symbols belong to classes; those of one class are the same, up to a tally and
/// now and then a change. Some classes are words of others.
pub fn draft(random: &mut Random, kinds: &[u8]) -> Draft {
    let count = if random.one_in(24) { 9 + random.below(24) } else { 1 + random.below(8) };
    let letters = if random.one_in(64) { 26 } else { 1 + random.below(4) } as u8;
    let classes = 1 + random.below(count);
    let class_of: Vec<usize> = (0..count).map(|at| if at < classes { at } else { random.below(classes) }).collect();
    let bases: Vec<[u32; 2]> = (0..count)
        .map(|_| if random.one_in(3) { [random.below(9) as u32, random.below(9) as u32] } else { [0; 2] })
        .collect();
    let longest = if random.one_in(4) { 4 } else { 2 };
    let mut shapes: Vec<BTreeMap<u8, ([u32; 2], Vec<usize>)>> = Vec::new();
    for class in 0..classes {
        let mut shape = BTreeMap::new();
        if class > 1 && random.one_in(3) {
            let (first, second) = (random.below(class), random.below(class));
            for (&letter, (numbers, word)) in &shapes[first] {
                let mut word: Vec<usize> = word.clone();
                word.push(second);
                if word.len() <= 4 {
                    shape.insert(letter, (*numbers, word));
                }
            }
        } else {
            for at in 0..letters {
                if at > 0 && random.one_in(4) {
                    continue;
                }
                let length = random.below(longest + 1).saturating_sub((at == 0) as usize);
                let numbers = [random.below(3) as u32 * 135, random.below(4) as u32];
                let bound = if at == 0 { class.max(1) } else { classes };
                shape.insert(b'A' + at, (numbers, (0..length).map(|_| random.below(bound)).collect()));
            }
        }
        shapes.push(shape);
    }
    let mut draft = Draft::new(count, kinds);
    for symbol in 0..count {
        for (&letter, (numbers, word)) in &shapes[class_of[symbol]] {
            let mut rule = Rule::default();
            for &class in word {
                let members: Vec<usize> = (0..count).filter(|&at| class_of[at] == class).collect();
                rule.word.push(members[random.below(members.len())] as u8);
            }
            for (at, &kind) in kinds.iter().enumerate() {
                let mut number = plus(kind, numbers[at], bases[symbol][at]);
                for &next in &rule.word {
                    number = minus(kind, number, bases[next as usize][at]);
                }
                rule.numbers[at] = number;
            }
            match random.below(200) {
                0 => rule.numbers[0] ^= 1,
                1 => rule.word = random.word(rule.word.len(), count),
                2 => continue,
                _ => {}
            }
            draft.rules.insert((symbol as u8, letter), rule);
        }
    }
    draft
}

/// Symbols 0 to 2 have the norms 1, 5 and 21, all others 64. Each of these leads to another, somewhere in a word.
pub fn long(random: &mut Random) -> Draft {
    let mut file = Draft::new(32, &[1]);
    let letters = [2, 8, 26, 26][random.below(4)];
    let same = random.one_in(4);
    let linked = if random.one_in(2) { 1 } else { random.below(letters) };
    let mut links = vec![letters - 1];
    links.extend((0..linked).map(|_| 1 + random.below(letters - 1)));
    if random.one_in(2) {
        links.remove(0);
    }
    let place = random.below(4);
    let twice = random.one_in(4);
    let step = [1, 28, 1 + random.below(28)][random.below(3)];
    let odd = [31, 3, 3 + random.below(29) as u8][random.below(3)];
    let fill = if random.one_in(2) { vec![3; 4] } else { random.word(4, 32) };
    for at in 0..letters {
        let letter = b'A' + at as u8;
        file.rule(0, letter, 0, &[]);
        file.rule(1, letter, 0, &[0; 4]);
        file.rule(2, letter, 0, &[1; 4]);
        for symbol in 3..32u8 {
            let mut word = if at == 0 { vec![2; 3] } else { fill.clone() };
            let next = 3 + (symbol as usize - 3 + step) % 29;
            if at > 0 && links.contains(&at) {
                word[place] = next as u8;
                if twice {
                    word[(place + 1) % 4] = next as u8;
                }
            }
            file.rule(symbol, letter, (!same && symbol == odd && at == letters - 1) as u32, &word);
        }
    }
    file
}

/// Each symbol is the one before with another behind it: the norms are 1, 2, 3 and so on.
pub fn powers(random: &mut Random) -> Draft {
    let mut file = Draft::new(32, &[1]);
    let letters = [2, 8, 26][random.below(3)];
    let (more, at) = (1 + random.below(2), random.below(letters) as u8);
    for letter in 0..letters as u8 {
        for symbol in 0..32u8 {
            let mut word = match (symbol, letter) {
                (0, _) => vec![],
                _ => vec![symbol - 1],
            };
            if letter > 0 && letter == at {
                word.extend(vec![random.below(1 + symbol as usize) as u8; more]);
            }
            file.rule(symbol, b'A' + letter, (random.one_in(60) && symbol > 20) as u32, &word);
        }
    }
    file
}

/// Rows for a file: those that a few comparisons leave, or any.
pub fn add_rows(random: &mut Random, draft: &mut Draft) {
    if random.one_in(3) {
        for _ in 0..1 + random.below(3) {
            let word = random.word(1, draft.count);
            draft.rows.insert(random.below(draft.count) as u8, word);
        }
    } else {
        draft.rows = found_rows(random, &draft.bytes());
    }
    if random.one_in(8) {
        if let Some(word) = draft.rows.values_mut().next() {
            let at = random.below(word.len());
            word[at] = random.below(draft.count) as u8;
        }
    }
}

fn found_rows(random: &mut Random, bytes: &[u8]) -> BTreeMap<u8, Vec<u8>> {
    let view = check(bytes, None).expect("a draft is a file");
    let mut section = [0; COPY_SIZE];
    let found = with_tally!(view.kinds, T => {
        let mut comparer = Comparer::<T>::new(view.names.len() as u64, view.rules());
        let mut out = vec![0; MAX_INPUT];
        for _ in 0..3 {
            let words = [random.below(view.names.len()) as u64, random.below(view.names.len()) as u64];
            let _ = comparer.compare(&words[..1], &words[1..], &mut out);
        }
        length_of(&comparer, &mut section)
    });
    let mut rows = BTreeMap::new();
    let mut at = 1;
    while at < found {
        let end = at + 2 + section[at + 1] as usize;
        rows.insert(section[at], section[at + 2..end].to_vec());
        at = end;
    }
    rows
}

fn length_of<T: Tally>(comparer: &Comparer<T>, section: &mut [u8]) -> usize {
    comparer.copy_rows(section).unwrap_or(0)
}

/// A file as large as can be.
pub fn largest() -> Vec<u8> {
    let mut file = Draft::new(32, &[1, 2]);
    for symbol in 0..32 {
        for letter in b'A'..=b'Z' {
            file.rules.insert((symbol, letter), Rule { numbers: [270, 265], word: vec![31; 4] });
        }
        if symbol > 0 {
            file.rows.insert(symbol, vec![0; 64]);
        }
    }
    file.bytes()
}

/// Bytes changed, cut or added.
pub fn damage(random: &mut Random, bytes: &mut Vec<u8>) {
    for _ in 0..1 + random.below(3) {
        let at = random.below(bytes.len() + 1);
        match random.below(8) {
            0 => bytes.truncate(at),
            1 => bytes.insert(at, random.below(256) as u8),
            2 => bytes.extend_from_slice(&[0, 1, 2][..1 + random.below(3)]),
            3 if at < bytes.len() => {
                bytes.remove(at);
            }
            4 if at < bytes.len() => bytes[at] = bytes[at].wrapping_add(1),
            5 if at < bytes.len() => bytes[at] = bytes[at].wrapping_sub(1),
            6 if at < bytes.len() => bytes[at] = random.below(256) as u8,
            7 if at < bytes.len() => bytes[at] = random.below(6) as u8,
            _ => bytes.push(random.below(256) as u8),
        }
    }
}

/// Bytes that are hardly ever a file.
pub fn noise(random: &mut Random) -> Vec<u8> {
    let most = if random.one_in(50) { 15_000 } else { 60 };
    let length = random.below(most);
    let mut bytes: Vec<u8> = (0..length)
        .map(|_| match random.below(4) {
            0 => random.below(256) as u8,
            1 => b'A' + random.below(58) as u8,
            _ => random.below(5) as u8,
        })
        .collect();
    // A start that may be one.
    if random.one_in(2) && !bytes.is_empty() {
        let count = 1 + random.below(3);
        bytes[0] = count as u8;
        // A few kinds and rules at most, so that now and then all is read.
        let start = [&NAMES[..count], &[0, 0, random.below(3) as u8]].concat();
        for (byte, other) in bytes[1..].iter_mut().zip(start) {
            *byte = other;
        }
    }
    bytes
}
