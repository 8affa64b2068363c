//! Files, surveys, rows and comparisons, written from the documents in `docs/` alone.

pub const MAX_SYMBOLS: usize = 32;
pub const MAX_NORM: usize = 64;
pub const MAX_RULES: usize = 832;
pub const MAX_ROWS: usize = 31;
pub const MAX_GIVEN: usize = 8;
pub const MAX_INPUT: usize = 16_384;
pub const COPY_SIZE: usize = 2_047;
pub const FILE_SIZE: usize = 14_565;

/// Why something is refused.
#[derive(Clone, Copy, Debug, PartialEq, Eq)]
pub struct Fault {
    pub number: u8,
    pub first: u64,
    pub second: u64,
}

impl Fault {
    fn new(number: u8, first: usize, second: usize) -> Fault {
        Fault { number, first: first as u64, second: second as u64 }
    }

    pub fn layer(&self) -> &'static str {
        match self.number {
            0..=7 => "file",
            8..=12 => "grammar",
            _ => "comparer",
        }
    }
}

// Tallies

/// The kinds of a tally's numbers, at most two.
#[derive(Clone, Copy, Debug, PartialEq, Eq)]
pub struct Kinds {
    list: [u8; 2],
    count: usize,
}

impl Kinds {
    pub const NONE: Kinds = Kinds { list: [0; 2], count: 0 };

    /// None where there are more than two.
    pub fn of(kinds: &[u8]) -> Option<Kinds> {
        let mut list = [0; 2];
        list.get_mut(..kinds.len())?.copy_from_slice(kinds);
        Some(Kinds { list, count: kinds.len() })
    }

    pub fn list(&self) -> &[u8] {
        &self.list[..self.count]
    }

    fn fit_a_file(&self) -> bool {
        let kinds = self.list();
        kinds.iter().all(|kind| (1..=3).contains(kind)) && kinds.windows(2).all(|two| two[0] < two[1])
    }
}

/// An abelian group whose elements are up to two numbers.
pub trait Tally: Copy + Eq {
    const KINDS: Kinds;
    const ZERO: Self;
    fn plus(self, other: Self) -> Self;
    fn minus(self, other: Self) -> Self;
    fn of_numbers(numbers: [u32; 2]) -> Self;
    fn numbers(self) -> [u32; 2];
}

#[derive(Clone, Copy, PartialEq, Eq)]
pub struct Untallied;

/// A length of kind 1 or 2, added modulo 2^32.
#[derive(Clone, Copy, PartialEq, Eq)]
pub struct Length<const KIND: u8>(u32);

/// Of each of 32 ones, whether there is an odd number.
#[derive(Clone, Copy, PartialEq, Eq)]
pub struct OddOnes(u32);

#[derive(Clone, Copy, PartialEq, Eq)]
pub struct Pair<L, R>(L, R);

pub type Foot = Length<1>;
pub type Last = Length<2>;

impl Tally for Untallied {
    const KINDS: Kinds = Kinds::NONE;
    const ZERO: Self = Untallied;
    fn plus(self, _: Self) -> Self {
        self
    }
    fn minus(self, _: Self) -> Self {
        self
    }
    fn of_numbers(_: [u32; 2]) -> Self {
        Untallied
    }
    fn numbers(self) -> [u32; 2] {
        [0; 2]
    }
}

impl<const KIND: u8> Tally for Length<KIND> {
    const KINDS: Kinds = Kinds { list: [KIND, 0], count: 1 };
    const ZERO: Self = Length(0);
    #[inline]
    fn plus(self, other: Self) -> Self {
        Length(self.0.wrapping_add(other.0))
    }
    #[inline]
    fn minus(self, other: Self) -> Self {
        Length(self.0.wrapping_sub(other.0))
    }
    fn of_numbers(numbers: [u32; 2]) -> Self {
        Length(numbers[0])
    }
    fn numbers(self) -> [u32; 2] {
        [self.0, 0]
    }
}

impl Tally for OddOnes {
    const KINDS: Kinds = Kinds { list: [3, 0], count: 1 };
    const ZERO: Self = OddOnes(0);
    #[inline]
    fn plus(self, other: Self) -> Self {
        OddOnes(self.0 ^ other.0)
    }
    #[inline]
    fn minus(self, other: Self) -> Self {
        OddOnes(self.0 ^ other.0)
    }
    fn of_numbers(numbers: [u32; 2]) -> Self {
        OddOnes(numbers[0])
    }
    fn numbers(self) -> [u32; 2] {
        [self.0, 0]
    }
}

/// A pair of tallies that have one number each.
impl<L: Tally, R: Tally> Tally for Pair<L, R> {
    const KINDS: Kinds = Kinds { list: [L::KINDS.list[0], R::KINDS.list[0]], count: 2 };
    const ZERO: Self = Pair(L::ZERO, R::ZERO);
    #[inline]
    fn plus(self, other: Self) -> Self {
        Pair(self.0.plus(other.0), self.1.plus(other.1))
    }
    #[inline]
    fn minus(self, other: Self) -> Self {
        Pair(self.0.minus(other.0), self.1.minus(other.1))
    }
    fn of_numbers(numbers: [u32; 2]) -> Self {
        Pair(L::of_numbers([numbers[0], 0]), R::of_numbers([numbers[1], 0]))
    }
    fn numbers(self) -> [u32; 2] {
        [self.0.numbers()[0], self.1.numbers()[0]]
    }
}

/// Puts the tally type of some kinds in place of `$tally`.
#[macro_export]
macro_rules! with_tally {
    ($kinds:expr, $tally:ident => $body:expr) => {{
        use $crate::peer::{Foot, Last, OddOnes, Pair, Untallied};
        macro_rules! arm {
            ($type:ty) => {{
                type $tally = $type;
                $body
            }};
        }
        match $kinds {
            [] => arm!(Untallied),
            [1] => arm!(Foot),
            [2] => arm!(Last),
            [3] => arm!(OddOnes),
            [1, 1] => arm!(Pair<Foot, Foot>),
            [1, 2] => arm!(Pair<Foot, Last>),
            [1, 3] => arm!(Pair<Foot, OddOnes>),
            [2, 1] => arm!(Pair<Last, Foot>),
            [2, 2] => arm!(Pair<Last, Last>),
            [2, 3] => arm!(Pair<Last, OddOnes>),
            [3, 1] => arm!(Pair<OddOnes, Foot>),
            [3, 2] => arm!(Pair<OddOnes, Last>),
            [3, 3] => arm!(Pair<OddOnes, OddOnes>),
            _ => panic!("no tally has these kinds"),
        }
    }};
}

// Files

/// A rule of any grammar, as it is taken up. Of a longer word the first four symbols are held.
#[derive(Clone, Copy)]
pub struct Rule {
    pub symbol: u64,
    pub letter: u8,
    pub length: u64,
    pub word: [u64; 4],
    pub numbers: [u32; 2],
}

/// The parts of a file that passed the check.
pub struct View<'a> {
    pub names: &'a [u8],
    pub kinds: &'a [u8],
    rule_count: usize,
    rules: &'a [u8],
    /// The rows section, its count included.
    pub rows: &'a [u8],
}

struct Reader<'a> {
    bytes: &'a [u8],
    at: usize,
}

impl<'a> Reader<'a> {
    #[inline]
    fn field(&mut self, size: usize) -> Result<&'a [u8], Fault> {
        match self.bytes[self.at..].get(..size) {
            Some(field) => {
                self.at += size;
                Ok(field)
            }
            None => Err(Fault::new(1, self.bytes.len(), 0)),
        }
    }

    #[inline]
    fn byte(&mut self) -> Result<u8, Fault> {
        Ok(self.field(1)?[0])
    }

    #[inline]
    fn count(&mut self, least: usize, most: usize) -> Result<usize, Fault> {
        let count = self.byte()? as usize;
        if count < least || count > most {
            return Err(Fault::new(2, self.at - 1, 0));
        }
        Ok(count)
    }

    #[inline]
    fn symbol(&mut self, symbols: u64) -> Result<u8, Fault> {
        let symbol = self.byte()?;
        if symbol as u64 >= symbols {
            return Err(Fault::new(5, self.at - 1, 0));
        }
        Ok(symbol)
    }

    #[inline]
    fn word(&mut self, least: usize, most: usize, symbols: u64) -> Result<(), Fault> {
        for _ in 0..self.count(least, most)? {
            self.symbol(symbols)?;
        }
        Ok(())
    }

    fn unallowed(&self) -> Fault {
        Fault::new(3, self.at - 1, 0)
    }

    /// The last section and the end.
    fn rows(&mut self, symbols: u64) -> Result<(), Fault> {
        let mut before = -1;
        for _ in 0..self.count(0, MAX_ROWS)? {
            let begin = self.at;
            let symbol = self.symbol(symbols)? as i32;
            if symbol <= before {
                return Err(Fault::new(4, begin, 0));
            }
            before = symbol;
            self.word(1, MAX_NORM, symbols)?;
        }
        if self.at < self.bytes.len() {
            return Err(Fault::new(6, self.at, 0));
        }
        Ok(())
    }
}

/// The first fault of some names: the place among them of one that may be no name or was there.
fn bad_name(names: &[u8]) -> Option<usize> {
    let mut seen = [false; 256];
    names.iter().position(|&name| {
        let good = (name.is_ascii_lowercase() || name.is_ascii_digit()) && !seen[name as usize];
        seen[name as usize] = true;
        !good
    })
}

/// The file check, for some kinds or for those that the file states.
pub fn check(bytes: &[u8], kinds: Option<Kinds>) -> Result<View<'_>, Fault> {
    let mut reader = Reader { bytes, at: 0 };
    let symbols = reader.count(1, MAX_SYMBOLS)?;
    let present = &bytes[1..bytes.len().min(1 + symbols)];
    if let Some(place) = bad_name(present) {
        return Err(Fault::new(3, 1 + place, 0));
    }
    let names = reader.field(symbols)?;
    let kind_count = reader.count(0, 2)?;
    let kinds_at = reader.at;
    let mut before = 0;
    for _ in 0..kind_count {
        let kind = reader.byte()?;
        if kind <= before || kind > 3 {
            return Err(reader.unallowed());
        }
        before = kind;
    }
    let stated = &bytes[kinds_at..reader.at];
    if kinds.is_some_and(|kinds| kinds.list() != stated) {
        return Err(Fault::new(7, 0, 0));
    }

    let rules_at = reader.at;
    let count = reader.field(2)?;
    let rule_count = u16::from_be_bytes([count[0], count[1]]) as usize;
    if rule_count > MAX_RULES {
        return Err(Fault::new(2, rules_at, 0));
    }
    let mut before = -1;
    for _ in 0..rule_count {
        let begin = reader.at;
        let symbol = reader.symbol(symbols as u64)?;
        let letter = reader.byte()?;
        if !letter.is_ascii_uppercase() {
            return Err(reader.unallowed());
        }
        let key = symbol as i32 * 256 + letter as i32;
        if key <= before {
            return Err(Fault::new(4, begin, 0));
        }
        before = key;
        reader.field(4 * kind_count)?;
        reader.word(0, 4, symbols as u64)?;
    }
    let rows_at = reader.at;
    reader.rows(symbols as u64)?;
    Ok(View { names, kinds: stated, rule_count, rules: &bytes[rules_at + 2..rows_at], rows: &bytes[rows_at..] })
}

impl<'a> View<'a> {
    /// The rules, by symbol and letter.
    pub fn rules(&self) -> impl Iterator<Item = Rule> + 'a {
        let kinds = self.kinds.len();
        let bytes = self.rules;
        let mut at = 0;
        (0..self.rule_count).map(move |_| {
            let head = &bytes[at..];
            let mut numbers = [0; 2];
            for (number, field) in numbers.iter_mut().zip(head[2..2 + 4 * kinds].chunks_exact(4)) {
                *number = u32::from_be_bytes([field[0], field[1], field[2], field[3]]);
            }
            let word_at = 3 + 4 * kinds;
            let length = head[word_at - 1] as usize;
            let mut word = [0; 4];
            for (symbol, &byte) in word.iter_mut().zip(&head[word_at..word_at + length]) {
                *symbol = byte as u64;
            }
            at += word_at + length;
            Rule { symbol: head[0] as u64, letter: head[1], length: length as u64, word, numbers }
        })
    }
}

/// The rows of a section that passed the check: each symbol with its word.
fn section_rows(section: &[u8]) -> impl Iterator<Item = (usize, &[u8])> {
    let mut at = 1;
    (0..section[0]).map(move |_| {
        let end = at + 2 + section[at + 1] as usize;
        let row = (section[at] as usize, &section[at + 2..end]);
        at = end;
        row
    })
}

// The surveyed grammar

/// A rule of the surveyed grammar. The word stands reversed, as it is put on a stack.
#[derive(Clone, Copy)]
struct Step<T> {
    length: u8,
    word: [u8; 4],
    /// The norm of the word.
    weight: u16,
    tally: T,
}

const NO_STEP: u8 = 255;

impl<T> Step<T> {
    #[inline]
    fn is_there(&self) -> bool {
        self.length != NO_STEP
    }

    /// The word's symbols, from the first.
    #[inline]
    fn symbols(&self) -> impl Iterator<Item = usize> + '_ {
        self.word[..self.length as usize].iter().rev().map(|&symbol| symbol as usize)
    }
}

/// What is left of a word on a run, the first symbol on top. A word with more symbols than there
/// are letters left takes none of the fronts, so no run has need of more.
type Stack = [u8; MAX_INPUT + 256];

struct Grammar<T> {
    count: usize,
    /// The rules, at 32 times the symbol and the letter's low five bits.
    steps: [Step<T>; 1024],
    norms: [u8; MAX_SYMBOLS],
    /// The symbols by norm, then by number.
    order: [u8; MAX_SYMBOLS],
    firsts: [[u8; MAX_NORM]; MAX_SYMBOLS],
    /// The tallies of the first inputs.
    first_tallies: [T; MAX_SYMBOLS],
}

impl<T: Tally> Grammar<T> {
    /// Surveys a grammar. The rules come by symbol and letter, at most one for each.
    fn survey(count: u64, rules: impl Iterator<Item = Rule>) -> Result<Box<Grammar<T>>, Fault> {
        const UNKNOWN: u32 = 1 << 16;
        const LONGER: u32 = MAX_NORM as u32 + 1;
        const NOTHING: u8 = MAX_SYMBOLS as u8;

        if count == 0 || count > MAX_SYMBOLS as u64 {
            return Err(Fault { number: 8, first: count, second: 0 });
        }
        let symbols = count as usize;
        let no_step = Step { length: NO_STEP, word: [0; 4], weight: 0, tally: T::ZERO };
        let mut grammar = Box::new(Grammar {
            count: symbols,
            steps: [no_step; 1024],
            norms: [0; MAX_SYMBOLS],
            order: [0; MAX_SYMBOLS],
            firsts: [[0; MAX_NORM]; MAX_SYMBOLS],
            first_tallies: [T::ZERO; MAX_SYMBOLS],
        });

        // Symbol and padded word of each rule.
        let mut list = [(0u8, [NOTHING; 4]); MAX_RULES];
        let mut listed = 0;
        for rule in rules {
            let fault = |number| Fault { number, first: rule.symbol, second: rule.letter as u64 };
            if rule.length > 4 {
                return Err(fault(9));
            }
            let word = &rule.word[..rule.length as usize];
            if word.iter().any(|&symbol| symbol >= count) {
                return Err(fault(10));
            }
            let step = &mut grammar.steps[place(rule.symbol as u8, rule.letter)];
            step.length = rule.length as u8;
            step.tally = T::of_numbers(rule.numbers);
            list[listed].0 = rule.symbol as u8;
            for (k, &symbol) in word.iter().enumerate() {
                step.word[word.len() - 1 - k] = symbol as u8;
                list[listed].1[k] = symbol as u8;
            }
            listed += 1;
        }

        let mut measures = [UNKNOWN; MAX_SYMBOLS + 1];
        measures[MAX_SYMBOLS] = 0;
        loop {
            let mut fell = false;
            for (symbol, word) in &list[..listed] {
                let sum = 1 + word.iter().map(|&symbol| measures[symbol as usize]).sum::<u32>();
                if sum < UNKNOWN && sum.min(LONGER) < measures[*symbol as usize] {
                    measures[*symbol as usize] = sum.min(LONGER);
                    fell = true;
                }
            }
            if !fell {
                break;
            }
        }
        let measures = &measures[..symbols];
        if let Some(symbol) = measures.iter().position(|&measure| measure == UNKNOWN) {
            return Err(Fault::new(11, symbol, 0));
        }
        if let Some(symbol) = measures.iter().position(|&measure| measure == LONGER) {
            return Err(Fault::new(12, symbol, 0));
        }
        grammar.norms = std::array::from_fn(|symbol| measures.get(symbol).map_or(0, |&norm| norm as u8));
        grammar.order = std::array::from_fn(|symbol| symbol as u8);
        let norms = grammar.norms;
        grammar.order[..symbols].sort_unstable_by_key(|&symbol| (norms[symbol as usize], symbol));
        for step in &mut grammar.steps {
            if step.is_there() {
                step.weight = step.symbols().map(|symbol| norms[symbol] as u16).sum();
            }
        }
        grammar.spell_firsts();
        Ok(grammar)
    }

    fn spell_firsts(&mut self) {
        for k in 0..self.count {
            let symbol = self.order[k];
            let norm = self.norms[symbol as usize] as u16;
            let makes_norm = |letter: &u8| {
                let step = self.step(symbol, *letter);
                step.is_there() && step.weight + 1 == norm
            };
            let letter = (b'A'..=b'Z').find(makes_norm).expect("a norm is made by a rule");
            let step = *self.step(symbol, letter);
            let mut first = [0; MAX_NORM];
            first[0] = letter;
            let mut at = 1;
            let mut tally = step.tally;
            for next in step.symbols() {
                let norm = self.norms[next] as usize;
                first[at..at + norm].copy_from_slice(&self.firsts[next][..norm]);
                at += norm;
                tally = tally.plus(self.first_tallies[next]);
            }
            self.firsts[symbol as usize] = first;
            self.first_tallies[symbol as usize] = tally;
        }
    }

    #[inline]
    fn step(&self, symbol: u8, letter: u8) -> &Step<T> {
        &self.steps[place(symbol, letter)]
    }

    fn first(&self, symbol: u8) -> &[u8] {
        &self.firsts[symbol as usize][..self.norms[symbol as usize] as usize]
    }

    fn norm_of(&self, word: &[u8]) -> u32 {
        word.iter().map(|&symbol| self.norms[symbol as usize] as u32).sum()
    }

    fn push_first(&self, word: &[u8], input: &mut Vec<u8>) {
        for &symbol in word {
            input.extend_from_slice(self.first(symbol));
        }
    }

    fn is_earlier(&self, one: u8, two: u8) -> bool {
        (self.norms[one as usize], one) < (self.norms[two as usize], two)
    }

    /// The front of the letters that the word takes: its length and tally.
    fn front(&self, stack: &mut Stack, word: &[u8], letters: &[u8]) -> Option<(usize, T)> {
        let mut top = word.len();
        for (slot, &symbol) in stack.iter_mut().zip(word.iter().rev()) {
            *slot = symbol;
        }
        let mut tally = T::ZERO;
        for (used, &letter) in letters.iter().enumerate() {
            if top == 0 {
                return Some((used, tally));
            }
            if top > letters.len() - used {
                return None;
            }
            top -= 1;
            let step = self.step(stack[top], letter);
            if !step.is_there() {
                return None;
            }
            stack[top..top + 4].copy_from_slice(&step.word);
            top += step.length as usize;
            tally = tally.plus(step.tally);
        }
        (top == 0).then_some((letters.len(), tally))
    }

    /// The tally if the word takes just these letters.
    fn takes(&self, stack: &mut Stack, word: &[u8], letters: &[u8]) -> Option<T> {
        match self.front(stack, word, letters) {
            Some((length, tally)) if length == letters.len() => Some(tally),
            _ => None,
        }
    }

    /// Uses up a first input from a symbol. What is left stands on the stack; its height.
    fn read(&self, stack: &mut Stack, symbol: u8, letters: &[u8]) -> Option<usize> {
        stack[0] = symbol;
        let mut top = 1;
        for &letter in letters {
            top = usize::checked_sub(top, 1)?;
            let step = self.step(stack[top], letter);
            if !step.is_there() {
                return None;
            }
            stack[top..top + 4].copy_from_slice(&step.word);
            top += step.length as usize;
        }
        Some(top)
    }

    /// The row that would be written for the later of two symbols, or none if they cannot both
    /// begin words that are the same.
    fn mend(&self, stack: &mut Stack, later: u8, earlier: u8) -> Option<Row<T>> {
        let rest = self.read(stack, later, self.first(earlier))?;
        let norm = self.norms[later as usize] as u32;
        if self.norms[earlier as usize] as u32 + self.norm_of(&stack[..rest]) != norm {
            return None;
        }
        let mut row = Row { word: [0; MAX_NORM], length: 1 + rest, offset: T::ZERO };
        row.word[0] = earlier;
        for (slot, &symbol) in row.word[1..].iter_mut().zip(stack[..rest].iter().rev()) {
            *slot = symbol;
        }
        let tally = self.takes(stack, row.word(), self.first(later))?;
        row.offset = self.first_tallies[later as usize].minus(tally);
        Some(row)
    }
}

#[inline]
fn place(symbol: u8, letter: u8) -> usize {
    ((symbol as usize) << 5 | (letter & 31) as usize) & 1023
}

// Rows

#[derive(Clone, Copy)]
struct Row<T> {
    word: [u8; MAX_NORM],
    length: usize,
    offset: T,
}

impl<T> Row<T> {
    fn word(&self) -> &[u8] {
        &self.word[..self.length]
    }
}

/// The normal form of a symbol, with the sum of the offsets.
#[derive(Clone, Copy)]
struct Form<T> {
    word: [u8; MAX_NORM],
    length: usize,
    sum: T,
}

/// A normal form that is put together. Pieces are copied whole, hence the room behind.
struct Joined<T> {
    word: [u8; MAX_GIVEN * MAX_NORM + MAX_NORM],
    length: usize,
    sum: T,
}

impl<T: Tally> Joined<T> {
    fn new() -> Joined<T> {
        Joined { word: [0; MAX_GIVEN * MAX_NORM + MAX_NORM], length: 0, sum: T::ZERO }
    }

    #[inline]
    fn begin(&mut self, sum: T) {
        self.length = 0;
        self.sum = sum;
    }

    #[inline]
    fn push(&mut self, form: &Form<T>) {
        self.word[self.length..self.length + MAX_NORM].copy_from_slice(&form.word);
        self.length += form.length;
        self.sum = self.sum.plus(form.sum);
    }

    #[inline]
    fn word(&self) -> &[u8] {
        &self.word[..self.length]
    }
}

fn members(marks: u32) -> impl Iterator<Item = usize> {
    let mut left = marks;
    std::iter::from_fn(move || {
        let next = left.trailing_zeros() as usize;
        left &= left.wrapping_sub(1);
        (next < MAX_SYMBOLS).then_some(next)
    })
}

/// The marks, the rows, and each symbol's normal form.
#[derive(Clone)]
struct Sheet<T> {
    marks: u32,
    rows: [Row<T>; MAX_SYMBOLS],
    forms: [Form<T>; MAX_SYMBOLS],
}

impl<T: Tally> Sheet<T> {
    fn new() -> Sheet<T> {
        let row = Row { word: [0; MAX_NORM], length: 0, offset: T::ZERO };
        let mut sheet = Sheet {
            marks: 0,
            rows: [row; MAX_SYMBOLS],
            forms: [Form { word: [0; MAX_NORM], length: 1, sum: T::ZERO }; MAX_SYMBOLS],
        };
        sheet.clear();
        sheet
    }

    fn clear(&mut self) {
        self.marks = 0;
        for (symbol, form) in self.forms.iter_mut().enumerate() {
            form.word[0] = symbol as u8;
            form.length = 1;
            form.sum = T::ZERO;
        }
    }

    fn has(&self, symbol: u8) -> bool {
        self.marks >> symbol & 1 == 1
    }

    fn join(&self, word: &[u8], joined: &mut Joined<T>) {
        for &symbol in word {
            joined.push(&self.forms[symbol as usize]);
        }
    }

    /// Adds a row for a symbol that has none and stands in the normal form of none of the row's.
    fn write(&mut self, symbol: u8, row: &Row<T>) {
        let mut joined = Joined::new();
        joined.begin(row.offset);
        self.join(row.word(), &mut joined);
        let mut form = Form { word: [0; MAX_NORM], length: joined.length, sum: joined.sum };
        form.word[..joined.length].copy_from_slice(joined.word());
        for other in members(self.marks) {
            let old = self.forms[other];
            let old_word = &old.word[..old.length];
            if !old_word.contains(&symbol) {
                continue;
            }
            joined.begin(old.sum);
            for &piece in old_word {
                if piece == symbol {
                    joined.push(&form);
                } else {
                    joined.word[joined.length] = piece;
                    joined.length += 1;
                }
            }
            let new = &mut self.forms[other];
            new.word[..joined.length].copy_from_slice(joined.word());
            new.length = joined.length;
            new.sum = joined.sum;
        }
        self.marks |= 1 << symbol;
        self.rows[symbol as usize] = *row;
        self.forms[symbol as usize] = form;
    }

    /// Works the normal forms out anew, for these of the rows.
    fn rebuild(&mut self, marks: u32, order: &[u8]) {
        self.clear();
        self.marks = marks;
        let mut joined = Joined::new();
        for &symbol in order.iter().filter(|&&symbol| marks >> symbol & 1 == 1) {
            let row = &self.rows[symbol as usize];
            joined.begin(row.offset);
            self.join(row.word(), &mut joined);
            let form = &mut self.forms[symbol as usize];
            form.word[..joined.length].copy_from_slice(joined.word());
            form.length = joined.length;
            form.sum = joined.sum;
        }
    }

    /// The rows section.
    fn copy(&self, out: &mut [u8]) -> usize {
        out[0] = self.marks.count_ones() as u8;
        let mut at = 1;
        for symbol in members(self.marks) {
            let word = self.rows[symbol].word();
            out[at] = symbol as u8;
            out[at + 1] = word.len() as u8;
            out[at + 2..at + 2 + word.len()].copy_from_slice(word);
            at += 2 + word.len();
        }
        at
    }
}

// Comparisons

/// A pair that is looked at: the given words, or a row at a letter.
#[derive(Clone, Copy)]
enum Look {
    Given,
    Turn { symbol: u8, letter: u8 },
}

enum Found {
    Agree,
    Different,
    /// The later and the earlier symbol where the normal forms part.
    Part(u8, u8),
}

/// What a new row was made from, and the marks at that time.
#[derive(Clone, Copy)]
struct Source {
    symbol: u8,
    look: Look,
    marks: u32,
}

/// What an input shows: that the given words differ on it, or that a row is not true on it.
#[derive(Clone, Copy)]
enum Lead {
    Words,
    Row(u8),
}

/// One word of a pair, with the sum before it.
struct Side<T> {
    word: [u8; MAX_NORM + 8],
    length: usize,
    sum: T,
}

impl<T> Side<T> {
    fn new(head: impl Iterator<Item = u8>, tail: &[u8], sum: T) -> Side<T> {
        let mut side = Side { word: [0; MAX_NORM + 8], length: 0, sum };
        for symbol in head.chain(tail.iter().copied()) {
            side.word[side.length] = symbol;
            side.length += 1;
        }
        side
    }

    fn word(&self) -> &[u8] {
        &self.word[..self.length]
    }
}

/// Where two normal forms part: the first of them is the one with the later symbol.
struct Parting {
    at: usize,
    left_is_later: bool,
}

struct Desk<T> {
    grammar: Box<Grammar<T>>,
    /// The rows that stand, and between calls the same rows once more, for trials.
    sheet: Box<Sheet<T>>,
    trial: Box<Sheet<T>>,
    stack: Box<Stack>,
    left: Joined<T>,
    right: Joined<T>,
    sources: [Source; MAX_SYMBOLS],
    source_count: usize,
    /// An input that shows something, one that is tried, and the one before.
    lead: Vec<u8>,
    tried: Vec<u8>,
    piece: Vec<u8>,
}

impl<T: Tally> Desk<T> {
    fn new(grammar: Box<Grammar<T>>) -> Desk<T> {
        let sheet = Box::new(Sheet::new());
        Desk {
            grammar,
            trial: sheet.clone(),
            sheet,
            stack: Box::new([0; MAX_INPUT + 256]),
            left: Joined::new(),
            right: Joined::new(),
            sources: [Source { symbol: 0, look: Look::Given, marks: 0 }; MAX_SYMBOLS],
            source_count: 0,
            lead: Vec::with_capacity(MAX_INPUT),
            tried: Vec::with_capacity(MAX_INPUT),
            piece: Vec::with_capacity(MAX_INPUT),
        }
    }

    /// Decides whether two words are the same. If so the rows of the trial come to stand; if not,
    /// they are left for a witness, and the pair that was different is told.
    fn decide(&mut self, one: &[u8], two: &[u8]) -> Option<Look> {
        self.source_count = 0;
        let old = self.trial.marks;
        let mut given_agree = false;
        let mut letters = [b'A'; MAX_SYMBOLS];
        'search: loop {
            if !given_agree {
                let found = self.look_at_given(one, two);
                match self.treat(Look::Given, found) {
                    Treated::Agree => given_agree = true,
                    Treated::Written => continue 'search,
                    Treated::Different => return Some(Look::Given),
                }
            }
            // The rows that were there agree, as they prove themselves.
            for symbol in members(self.trial.marks & !old) {
                while letters[symbol] <= b'Z' {
                    let letter = letters[symbol];
                    let look = Look::Turn { symbol: symbol as u8, letter };
                    let found = self.look_at_turn(symbol as u8, letter);
                    match self.treat(look, found) {
                        Treated::Agree => letters[symbol] += 1,
                        Treated::Written => continue 'search,
                        Treated::Different => return Some(look),
                    }
                }
            }
            self.keep();
            return None;
        }
    }

    /// Lets the rows of the trial stand.
    fn keep(&mut self) {
        if self.trial.marks != self.sheet.marks {
            self.sheet.clone_from(&self.trial);
        }
    }

    /// Takes the rows of the trial back.
    fn drop_trial(&mut self) {
        if self.source_count > 0 {
            self.trial.clone_from(&self.sheet);
        }
    }

    fn look_at_given(&mut self, one: &[u8], two: &[u8]) -> Found {
        if self.grammar.norm_of(one) != self.grammar.norm_of(two) {
            return Found::Different;
        }
        self.left.begin(T::ZERO);
        self.trial.join(one, &mut self.left);
        self.right.begin(T::ZERO);
        self.trial.join(two, &mut self.right);
        self.found()
    }

    fn look_at_turn(&mut self, symbol: u8, letter: u8) -> Found {
        let Desk { grammar, trial, left, right, .. } = self;
        let head = trial.rows[symbol as usize].word[0];
        let ours = grammar.step(symbol, letter);
        let theirs = grammar.step(head, letter);
        if !ours.is_there() && !theirs.is_there() {
            return Found::Agree;
        }
        if !ours.is_there() || !theirs.is_there() {
            return Found::Different;
        }
        let norm = grammar.norms[symbol as usize] as u16;
        let head_norm = grammar.norms[head as usize] as u16;
        if ours.weight + head_norm != theirs.weight + norm {
            return Found::Different;
        }
        left.begin(ours.tally);
        for next in ours.symbols() {
            left.push(&trial.forms[next]);
        }
        // The symbol's normal form is that of the row's word, and its sum has the offset in it.
        let whole = &trial.forms[symbol as usize];
        let front = &trial.forms[head as usize];
        right.begin(theirs.tally.plus(whole.sum).minus(front.sum));
        for next in theirs.symbols() {
            right.push(&trial.forms[next]);
        }
        let tail = &whole.word[front.length..whole.length];
        right.word[right.length..right.length + tail.len()].copy_from_slice(tail);
        right.length += tail.len();
        self.found()
    }

    /// Compares the two normal forms, of words of one norm.
    #[inline]
    fn found(&self) -> Found {
        if self.left.word() == self.right.word() {
            return if self.left.sum == self.right.sum { Found::Agree } else { Found::Different };
        }
        let parting = self.parting().expect("different words of one norm part");
        let (left, right) = (self.left.word[parting.at], self.right.word[parting.at]);
        if parting.left_is_later {
            Found::Part(left, right)
        } else {
            Found::Part(right, left)
        }
    }

    fn parting(&self) -> Option<Parting> {
        let at = self.left.word().iter().zip(self.right.word()).position(|(left, right)| left != right)?;
        let left_is_later = self.grammar.is_earlier(self.right.word[at], self.left.word[at]);
        Some(Parting { at, left_is_later })
    }

    #[inline]
    fn treat(&mut self, look: Look, found: Found) -> Treated {
        match found {
            Found::Agree => Treated::Agree,
            Found::Different => Treated::Different,
            Found::Part(later, earlier) => match self.grammar.mend(&mut self.stack, later, earlier) {
                None => Treated::Different,
                Some(row) => {
                    self.sources[self.source_count] = Source { symbol: later, look, marks: self.trial.marks };
                    self.source_count += 1;
                    self.trial.write(later, &row);
                    Treated::Written
                }
            },
        }
    }

    // Witnesses

    /// Leaves in `lead` an input on which the given words differ, after they were found different
    /// at the pair `ending`.
    fn witness(&mut self, one: &[u8], two: &[u8], ending: Look) {
        let mut lead = self.lead_of_ending(one, two, ending);
        for k in (0..self.source_count).rev() {
            let source = self.sources[k];
            if matches!(lead, Lead::Row(symbol) if symbol == source.symbol) {
                lead = self.lead_back(one, two, &source);
            }
        }
        assert!(matches!(lead, Lead::Words), "rows that were there are true");
    }

    fn side(&self, symbol: u8, letter: u8) -> Option<Side<T>> {
        let step = self.grammar.step(symbol, letter);
        step.is_there().then(|| Side::new(step.symbols().map(|symbol| symbol as u8), &[], step.tally))
    }

    fn sides(&self, one: &[u8], two: &[u8], look: Look) -> (Option<Side<T>>, Option<Side<T>>) {
        match look {
            Look::Given => {
                let side = |word: &[u8]| Side::new(std::iter::empty(), word, T::ZERO);
                (Some(side(one)), Some(side(two)))
            }
            Look::Turn { symbol, letter } => {
                let row = &self.trial.rows[symbol as usize];
                let step = self.grammar.step(row.word[0], letter);
                let right = step.is_there().then(|| {
                    let head = step.symbols().map(|symbol| symbol as u8);
                    Side::new(head, &row.word()[1..], row.offset.plus(step.tally))
                });
                (self.side(symbol, letter), right)
            }
        }
    }

    /// Works out the normal forms of two sides.
    fn join_sides(&mut self, left: &Side<T>, right: &Side<T>) {
        self.left.begin(left.sum);
        self.trial.join(left.word(), &mut self.left);
        self.right.begin(right.sum);
        self.trial.join(right.word(), &mut self.right);
    }

    fn lead_of_ending(&mut self, one: &[u8], two: &[u8], ending: Look) -> Lead {
        let (left, right) = match self.sides(one, two, ending) {
            (Some(left), Some(right)) => (left, right),
            (left, right) => {
                let side = left.or(right).expect("one side is there");
                let Look::Turn { symbol, letter } = ending else { unreachable!("the given words are there") };
                self.lead.clear();
                self.lead.push(letter);
                self.grammar.push_first(side.word(), &mut self.lead);
                return Lead::Row(symbol);
            }
        };
        self.join_sides(&left, &right);
        let left_first = self.grammar.norm_of(self.left.word()) <= self.grammar.norm_of(self.right.word());
        for left_now in [left_first, !left_first] {
            self.tried.clear();
            let form = if left_now { self.left.word() } else { self.right.word() };
            self.grammar.push_first(form, &mut self.tried);
            if let Some(lead) = self.attempt(ending, &left, &right) {
                return lead;
            }
        }
        let parting = self.parting().expect("the normal forms part");
        let later = if parting.left_is_later { self.left.word[parting.at] } else { self.right.word[parting.at] };
        self.piece.clear();
        self.piece.extend_from_slice(self.grammar.first(later));
        let length = self.piece.len();
        self.complete(length, &parting, ending, &left, &right).expect("an input fails")
    }

    /// A row is not true on the input in `lead`: leads on to the pair that it was made from, or to
    /// a row that was there before it.
    fn lead_back(&mut self, one: &[u8], two: &[u8], source: &Source) -> Lead {
        self.trial.rebuild(source.marks, &self.grammar.order[..self.grammar.count]);
        let (left, right) = self.sides(one, two, source.look);
        let (left, right) = (left.expect("both sides are there"), right.expect("both sides are there"));
        self.join_sides(&left, &right);
        let parting = self.parting().expect("the normal forms part");
        std::mem::swap(&mut self.lead, &mut self.piece);
        let row = &self.trial.rows[source.symbol as usize];
        let by_word = self.grammar.front(&mut self.stack, row.word(), &self.piece);
        let by_symbol = self.grammar.front(&mut self.stack, &[source.symbol], &self.piece);
        let whole = self.piece.len();
        let by_word = by_word.map(|front| front.0).filter(|&length| length < whole);
        let by_symbol = by_symbol.map(|front| front.0).filter(|&length| length < whole);
        for length in [Some(whole), by_word, by_symbol].into_iter().flatten() {
            if let Some(lead) = self.complete(length, &parting, source.look, &left, &right) {
                return lead;
            }
        }
        unreachable!("an input fails")
    }

    /// Tries the two inputs that are completed from the front of `piece` with this length.
    fn complete(
        &mut self,
        length: usize,
        parting: &Parting,
        look: Look,
        left: &Side<T>,
        right: &Side<T>,
    ) -> Option<Lead> {
        let (later, earlier) =
            if parting.left_is_later { (&self.left, &self.right) } else { (&self.right, &self.left) };
        let earlier = earlier.word[parting.at];
        self.tried.clear();
        self.grammar.push_first(&later.word[..parting.at], &mut self.tried);
        let begin = self.tried.len();
        self.tried.extend_from_slice(&self.piece[..length]);
        self.grammar.push_first(&later.word[parting.at + 1..later.length], &mut self.tried);
        if let Some(lead) = self.attempt(look, left, right) {
            return Some(lead);
        }
        let (front, _) = self.grammar.front(&mut self.stack, &[earlier], &self.tried[begin..])?;
        self.tried.splice(begin..begin + front, self.grammar.first(earlier).iter().copied());
        self.attempt(look, left, right)
    }

    /// Tries the input in `tried` on a pair. If it tells something, that is left in `lead`.
    fn attempt(&mut self, look: Look, left: &Side<T>, right: &Side<T>) -> Option<Lead> {
        let Desk { grammar, stack, lead, tried, .. } = self;
        let mut tally = |side: &Side<T>| Some(side.sum.plus(grammar.takes(stack, side.word(), tried)?));
        if tally(left) != tally(right) {
            lead.clear();
            let shown = match look {
                Look::Given => Lead::Words,
                Look::Turn { symbol, letter } => {
                    lead.push(letter);
                    Lead::Row(symbol)
                }
            };
            lead.extend_from_slice(tried);
            return Some(shown);
        }
        for side in [left, right] {
            if let Some((symbol, begin, end)) = self.blamed(side.word()) {
                self.lead.clear();
                self.lead.extend_from_slice(&self.tried[begin..end]);
                return Some(Lead::Row(symbol));
            }
        }
        None
    }

    /// Walks along the input in `tried`, replacing by the rows: the first row that is not true on
    /// the front that it is to take, and where that begins and ends.
    fn blamed(&mut self, word: &[u8]) -> Option<(u8, usize, usize)> {
        let Desk { grammar, trial, stack, tried, .. } = self;
        // Replacing keeps the norm, so there is room for all that has the norm of a given word.
        let mut left = [0u8; MAX_GIVEN * MAX_NORM];
        let mut top = 0;
        for &symbol in word.iter().rev() {
            left[top] = symbol;
            top += 1;
        }
        let mut at = 0;
        while top > 0 {
            top -= 1;
            let symbol = left[top];
            let front = grammar.front(stack, &[symbol], &tried[at..]);
            if !trial.has(symbol) {
                at += front?.0;
                continue;
            }
            let row = &trial.rows[symbol as usize];
            let by_word = grammar.front(stack, row.word(), &tried[at..]);
            let by_word = by_word.map(|(length, tally)| (length, row.offset.plus(tally)));
            if front != by_word {
                let (length, _) = front.or(by_word).expect("one of them takes a front");
                return Some((symbol, at, at + length));
            }
            for &next in row.word().iter().rev() {
                left[top] = next;
                top += 1;
            }
        }
        None
    }
}

enum Treated {
    Agree,
    Written,
    Different,
}

// Calls

#[derive(Clone, Copy, Debug, PartialEq, Eq)]
pub enum Answer {
    Same,
    /// The length of an input at the start of the buffer on which the words differ.
    Different(usize),
}

/// A grammar that was taken up, with rows. Of a refused one there are only the fault and the count.
pub struct Comparer<T> {
    count: u64,
    desk: Result<Desk<T>, Fault>,
}

fn given(word: &[u64]) -> [u8; MAX_GIVEN] {
    std::array::from_fn(|k| word.get(k).map_or(0, |&symbol| symbol as u8))
}

fn judge_words(count: u64, words: &[&[u64]]) -> Result<(), Fault> {
    for (k, word) in words.iter().enumerate() {
        if word.len() > MAX_GIVEN {
            return Err(Fault::new(13, k + 1, word.len()));
        }
    }
    for (k, word) in words.iter().enumerate() {
        if let Some(place) = word.iter().position(|&symbol| symbol >= count) {
            return Err(Fault::new(14, k + 1, place));
        }
    }
    Ok(())
}

impl<T: Tally> Comparer<T> {
    /// The rules come by symbol and letter, at most one for each, of symbols below the count.
    pub fn new(count: u64, rules: impl Iterator<Item = Rule>) -> Comparer<T> {
        Comparer { count, desk: Grammar::survey(count, rules).map(Desk::new) }
    }

    pub fn run(&mut self, word: &[u64], input: &[u8]) -> Result<Option<T>, Fault> {
        let desk = self.desk.as_mut().map_err(|fault| *fault)?;
        judge_words(self.count, &[word])?;
        if input.len() > MAX_INPUT {
            return Err(Fault::new(16, input.len(), 0));
        }
        if !input.iter().all(u8::is_ascii_uppercase) {
            return Ok(None);
        }
        Ok(desk.grammar.takes(&mut desk.stack, &given(word)[..word.len()], input))
    }

    pub fn compare(&mut self, one: &[u64], two: &[u64], out: &mut [u8]) -> Result<Answer, Fault> {
        let desk = self.desk.as_mut().map_err(|fault| *fault)?;
        judge_words(self.count, &[one, two])?;
        if out.len() < MAX_INPUT {
            return Err(Fault::new(15, out.len(), 0));
        }
        let (left, right) = (given(one), given(two));
        let (left, right) = (&left[..one.len()], &right[..two.len()]);
        Ok(match desk.decide(left, right) {
            None => Answer::Same,
            Some(ending) => {
                desk.witness(left, right, ending);
                desk.drop_trial();
                debug_assert!({
                    let Desk { grammar, stack, lead, .. } = &mut *desk;
                    grammar.takes(stack, left, lead) != grammar.takes(stack, right, lead)
                });
                out[..desk.lead.len()].copy_from_slice(&desk.lead);
                Answer::Different(desk.lead.len())
            }
        })
    }

    /// Whether two symbols are the same; none over a refused grammar or for other symbols. Leaves
    /// the rows as a comparison does, and makes no witness.
    pub fn same(&mut self, one: u64, two: u64) -> Option<bool> {
        let desk = self.desk.as_mut().ok()?;
        if one >= self.count || two >= self.count {
            return None;
        }
        let same = desk.decide(&[one as u8], &[two as u8]).is_none();
        if !same {
            desk.drop_trial();
        }
        Some(same)
    }

    pub fn offer(&mut self, bytes: &[u8]) -> Result<(), Fault> {
        Reader { bytes, at: 0 }.rows(self.count)?;
        let desk = self.desk.as_mut().map_err(|fault| *fault)?;
        let grammar = &desk.grammar;
        for (symbol, _) in section_rows(bytes) {
            if desk.sheet.has(symbol as u8) {
                return Err(Fault::new(17, symbol, 0));
            }
        }
        for (symbol, word) in section_rows(bytes) {
            let fits = grammar.norm_of(word) == grammar.norms[symbol] as u32;
            if !fits || (word.len() == 1 && word[0] as usize >= symbol) {
                return Err(Fault::new(18, symbol, 0));
            }
        }
        // The trial's rows are free until the marks are set.
        let mut marks = desk.sheet.marks;
        for (symbol, word) in section_rows(bytes) {
            let Some(tally) = grammar.takes(&mut desk.stack, word, grammar.first(symbol as u8)) else {
                return Err(Fault::new(19, symbol, 0));
            };
            let row = &mut desk.trial.rows[symbol];
            row.word[..word.len()].copy_from_slice(word);
            row.length = word.len();
            row.offset = grammar.first_tallies[symbol].minus(tally);
            marks |= 1 << symbol;
        }
        desk.trial.rebuild(marks, &grammar.order[..grammar.count]);
        for symbol in members(marks) {
            for letter in b'A'..=b'Z' {
                if !matches!(desk.look_at_turn(symbol as u8, letter), Found::Agree) {
                    desk.trial.clone_from(&desk.sheet);
                    return Err(Fault::new(20, symbol, letter as usize));
                }
            }
        }
        desk.keep();
        Ok(())
    }

    pub fn clear(&mut self) {
        if let Ok(desk) = &mut self.desk {
            desk.sheet.clear();
            desk.trial.clear();
        }
    }

    pub fn copy_rows(&self, out: &mut [u8]) -> Result<usize, Fault> {
        let desk = self.desk.as_ref().map_err(|fault| *fault)?;
        if out.len() < COPY_SIZE {
            return Err(Fault::new(21, out.len(), 0));
        }
        Ok(desk.sheet.copy(out))
    }

    pub fn write_file(&self, names: &[u8], out: &mut [u8]) -> Result<usize, Fault> {
        if names.len() as u64 != self.count {
            return Err(Fault::new(2, 0, 0));
        }
        if let Some(place) = bad_name(names) {
            return Err(Fault::new(3, 1 + place, 0));
        }
        if !T::KINDS.fit_a_file() {
            return Err(Fault::new(7, 0, 0));
        }
        let desk = self.desk.as_ref().map_err(|fault| *fault)?;
        if out.len() < FILE_SIZE {
            return Err(Fault::new(21, out.len(), 0));
        }
        let kinds = T::KINDS.list();
        let mut at = 0;
        let mut put = |bytes: &[u8]| {
            out[at..at + bytes.len()].copy_from_slice(bytes);
            at += bytes.len();
            at
        };
        put(&[names.len() as u8]);
        put(names);
        put(&[kinds.len() as u8]);
        put(kinds);
        let rules = desk.grammar.steps.iter().filter(|step| step.is_there()).count();
        put(&(rules as u16).to_be_bytes());
        for symbol in 0..desk.grammar.count as u8 {
            for letter in b'A'..=b'Z' {
                let step = desk.grammar.step(symbol, letter);
                if step.is_there() {
                    put(&[symbol, letter]);
                    for number in &step.tally.numbers()[..kinds.len()] {
                        put(&number.to_be_bytes());
                    }
                    put(&[step.length]);
                    for next in step.symbols() {
                        put(&[next as u8]);
                    }
                }
            }
        }
        let rows_at = put(&[]);
        Ok(rows_at + desk.sheet.copy(&mut out[rows_at..]))
    }

    pub fn norm(&self, symbol: u64) -> Option<u8> {
        let desk = self.desk.as_ref().ok()?;
        (symbol < self.count).then(|| desk.grammar.norms[symbol as usize])
    }

    /// The word of a symbol's row, and its offset.
    #[allow(dead_code)]
    pub fn row(&self, symbol: u64) -> Option<(&[u8], T)> {
        let desk = self.desk.as_ref().ok()?;
        if symbol >= self.count || !desk.sheet.has(symbol as u8) {
            return None;
        }
        let row = &desk.sheet.rows[symbol as usize];
        Some((row.word(), row.offset))
    }

    /// The fault of a grammar that is refused.
    pub fn fault(&self) -> Option<Fault> {
        self.desk.as_ref().err().copied()
    }
}

// Listings

/// The listing of a file's bytes. With `shown` each comparison also makes the input that it shows.
pub fn list_file(bytes: &[u8], shown: bool) -> String {
    let listing = check(bytes, None).and_then(|view| with_tally!(view.kinds, T => list_view::<T>(&view, shown)));
    listing.unwrap_or_else(|fault| format!("refused {} {} {}\n", fault.number, fault.first, fault.second))
}

fn list_view<T: Tally>(view: &View, shown: bool) -> Result<String, Fault> {
    let mut comparer = Comparer::<T>::new(view.names.len() as u64, view.rules());
    if let Some(fault) = comparer.fault() {
        return Err(fault);
    }
    comparer.offer(view.rows)?;
    let mut out = if shown { vec![0; MAX_INPUT] } else { Vec::new() };
    let mut text = String::with_capacity(256);
    // The symbols so far that are the same as no smaller one.
    let mut smallest = [0u64; MAX_SYMBOLS];
    let mut count = 0;
    for symbol in 0..view.names.len() as u64 {
        let same = smallest[..count].iter().copied().find(|&other| {
            if shown {
                comparer.compare(&[symbol], &[other], &mut out) == Ok(Answer::Same)
            } else {
                comparer.same(symbol, other) == Some(true)
            }
        });
        if same.is_none() {
            smallest[count] = symbol;
            count += 1;
        }
        let name = |symbol: u64| view.names[symbol as usize] as char;
        let norm = comparer.norm(symbol).unwrap_or(0);
        text.push(name(symbol));
        text.push(' ');
        if norm >= 10 {
            text.push((b'0' + norm / 10) as char);
        }
        text.push((b'0' + norm % 10) as char);
        text.push(' ');
        text.push(name(same.unwrap_or(symbol)));
        text.push('\n');
    }
    Ok(text)
}
