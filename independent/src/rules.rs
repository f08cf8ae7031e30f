//! The rules, on digits and sets: slow, plain, and with no algorithm of the library.
use std::collections::{BTreeMap, BTreeSet};

/// The digits of a word, factor 1 first; 0 beyond the last factor.
pub type Word = [u8; 32];

pub const ZERO: Word = [0; 32];

/// Below this many words a set is closed by adding until nothing new comes.
const SMALL: usize = 1000;

pub const FACTORS: u32 = 1;
pub const ILLEGAL: u32 = 2;
pub const GENERATED: u32 = 3;
pub const LIMIT: u32 = 4;
pub const PLACE: u32 = 5;
pub const MEMORY: u32 = 6;
pub const CUT: u32 = 7;
pub const MARK: u32 = 8;
pub const VERSION: u32 = 9;
pub const LEVELS: u32 = 10;
pub const SURPLUS: u32 = 11;
pub const LAST: u32 = 12;
/// A number stands for no levels, no side or no preference.
pub const UNKNOWN: u32 = 255;

/// The digits of a code, if it is legal for n factors.
pub fn digits(s: u8, n: u8, code: u64) -> Option<Word> {
    if !(1..=32).contains(&n) {
        return None;
    }
    let base = if s == 2 { 2 } else { 4 };
    let mut word = ZERO;
    let mut rest = code;
    for digit in word.iter_mut().take(n as usize) {
        *digit = (rest % base) as u8;
        rest /= base;
    }
    (rest == 0 && word.iter().all(|&digit| digit < s)).then_some(word)
}

/// The code of a word.
pub fn code(s: u8, word: &Word) -> u64 {
    let base: u64 = if s == 2 { 2 } else { 4 };
    let mut code = 0u64;
    for &digit in word.iter().rev() {
        code = code.wrapping_mul(base) + u64::from(digit);
    }
    code
}

pub fn sum(s: u8, a: &Word, b: &Word) -> Word {
    let mut word = ZERO;
    for i in 0..32 {
        word[i] = (a[i] + b[i]) % s;
    }
    word
}

pub fn length(word: &Word) -> usize {
    word.iter().filter(|&&digit| digit != 0).count()
}

/// The words that a list generates: from code 0, words of the list are added until nothing new comes.
pub fn closure(s: u8, list: &[Word]) -> BTreeSet<Word> {
    let mut all = BTreeSet::from([ZERO]);
    let mut new = vec![ZERO];
    while let Some(word) = new.pop() {
        for by in list {
            let next = sum(s, &word, by);
            if all.insert(next) {
                new.push(next);
            }
        }
    }
    all
}

/// What a set of generated words becomes with one word more.
fn widened(s: u8, set: &BTreeSet<Word>, word: &Word) -> BTreeSet<Word> {
    let mut all = set.clone();
    let mut step = *word;
    for _ in 1..s {
        all.extend(set.iter().map(|old| sum(s, old, &step)));
        step = sum(s, &step, word);
    }
    all
}

#[derive(Clone, Copy, Debug, PartialEq)]
pub enum Side {
    Defining,
    Block,
}

#[derive(Clone, Copy, Debug, PartialEq)]
pub enum Preference {
    Shortest,
    Cheapest,
    LeastAberration,
    Longest,
    CheapestThenLeastAberration,
}

pub const PREFERENCES: [Preference; 5] = [
    Preference::Shortest,
    Preference::Cheapest,
    Preference::LeastAberration,
    Preference::Longest,
    Preference::CheapestThenLeastAberration,
];

/// A plan with what its words generate.
#[derive(Clone)]
pub struct Plan {
    pub s: u8,
    pub n: u8,
    pub defining: Vec<Word>,
    pub block: Vec<Word>,
    /// what the defining words generate, and what all words do
    pub defined: BTreeSet<Word>,
    pub all: BTreeSet<Word>,
}

/// How many words a plan holds at most.
pub fn limit(s: u8) -> usize {
    if s == 2 {
        16
    } else {
        10
    }
}

impl Plan {
    pub fn new(s: u8, n: u8) -> Plan {
        Plan { s, n, defining: vec![], block: vec![], defined: BTreeSet::from([ZERO]), all: BTreeSet::from([ZERO]) }
    }

    pub fn list(&self, side: Side) -> &Vec<Word> {
        match side {
            Side::Defining => &self.defining,
            Side::Block => &self.block,
        }
    }

    pub fn code(&self, word: &Word) -> u64 {
        code(self.s, word)
    }

    fn words(&self) -> Vec<Word> {
        self.defining.iter().chain(&self.block).copied().collect()
    }

    /// One set of generated words with a word more.
    fn grown(&self, set: &BTreeSet<Word>, list: &[Word], word: &Word) -> BTreeSet<Word> {
        if set.len() < SMALL {
            let mut list = list.to_vec();
            list.push(*word);
            closure(self.s, &list)
        } else {
            widened(self.s, set, word)
        }
    }

    pub fn admit(&self, side: Side, code: u64) -> Result<Plan, u32> {
        let word = digits(self.s, self.n, code).ok_or(ILLEGAL)?;
        if self.all.contains(&word) {
            return Err(GENERATED);
        }
        if self.words().len() == limit(self.s) {
            return Err(LIMIT);
        }
        let mut plan = self.clone();
        plan.all = self.grown(&self.all, &self.words(), &word);
        match side {
            Side::Defining => {
                plan.defined = self.grown(&self.defined, &self.defining, &word);
                plan.defining.push(word);
            }
            Side::Block => plan.block.push(word),
        }
        Ok(plan)
    }

    /// The plan of two lists of independent words.
    fn of_words(s: u8, n: u8, defining: &[Word], block: &[Word]) -> Plan {
        let mut plan = Plan::new(s, n);
        for word in defining {
            plan = plan.admit(Side::Defining, code(s, word)).unwrap();
        }
        for word in block {
            plan = plan.admit(Side::Block, code(s, word)).unwrap();
        }
        plan
    }

    pub fn strike(&self, side: Side, place: usize) -> Result<Plan, u32> {
        let (mut defining, mut block) = (self.defining.clone(), self.block.clone());
        let list = match side {
            Side::Defining => &mut defining,
            Side::Block => &mut block,
        };
        if place == 0 || place > list.len() {
            return Err(PLACE);
        }
        list.remove(place - 1);
        Ok(Plan::of_words(self.s, self.n, &defining, &block))
    }

    pub fn start(&self, n: u8) -> Result<Plan, u32> {
        if (1..=32).contains(&n) {
            Ok(Plan::new(self.s, n))
        } else {
            Err(FACTORS)
        }
    }

    pub fn read(s: u8, file: &[u8]) -> Result<Plan, u32> {
        let head = file.get(..9).ok_or(CUT)?;
        if &head[..3] != b"DWF" {
            return Err(MARK);
        }
        if head[3..5] != [1, 0] {
            return Err(VERSION);
        }
        if head[5] != s {
            return Err(LEVELS);
        }
        let mut plan = Plan::new(s, 1).start(head[6])?;
        let (d, b) = (head[7] as usize, head[8] as usize);
        if d + b > limit(s) {
            return Err(LIMIT);
        }
        let body = &file[9..];
        if body.len() < 8 * (d + b) {
            return Err(CUT);
        }
        if body.len() > 8 * (d + b) {
            return Err(SURPLUS);
        }
        for (i, bytes) in body.chunks(8).enumerate() {
            let side = if i < d { Side::Defining } else { Side::Block };
            let code = bytes.iter().rev().fold(0u64, |code, &byte| code << 8 | u64::from(byte));
            plan = plan.admit(side, code)?;
        }
        Ok(plan)
    }

    pub fn file(&self) -> Vec<u8> {
        let mut file = b"DWF\x01\x00".to_vec();
        file.extend([self.s, self.n, self.defining.len() as u8, self.block.len() as u8]);
        for word in self.words() {
            file.extend(self.code(&word).to_le_bytes());
        }
        file
    }

    /// The count of each length, 1 to n, divided by s - 1.
    pub fn pattern(&self) -> Vec<u32> {
        (1..=self.n as usize)
            .map(|wanted| {
                let words = self.defined.iter().filter(|word| length(word) == wanted).count() as u32;
                assert_eq!(words % (u32::from(self.s) - 1), 0);
                words / (u32::from(self.s) - 1)
            })
            .collect()
    }

    pub fn resolution(&self) -> Option<(u32, u32)> {
        let pattern = self.pattern();
        let place = pattern.iter().position(|&count| count > 0)?;
        Some((place as u32 + 1, pattern[place]))
    }

    /// The alias set of a word, as ascending codes.
    pub fn aliases(&self, word: u64) -> Result<Vec<u64>, u32> {
        let word = digits(self.s, self.n, word).ok_or(ILLEGAL)?;
        let set: BTreeSet<u64> = self.defined.iter().map(|by| self.code(&sum(self.s, by, &word))).collect();
        Ok(set.into_iter().collect())
    }

    pub fn alias_member(&self, word: u64, m: u64) -> Result<u64, u32> {
        self.aliases(word)?.get(usize::try_from(m).unwrap_or(usize::MAX)).copied().ok_or(LAST)
    }

    /// One byte for each pair of factors: 1 if it is clear.
    pub fn clear(&self) -> Vec<u8> {
        let mut bytes = vec![];
        for i in 0..self.n as usize {
            for j in i + 1..self.n as usize {
                let mut pair = ZERO;
                pair[i] = 1;
                pair[j] = 1;
                let unclear = self.defined.iter().map(|by| sum(self.s, by, &pair)).any(|alias| {
                    length(&alias) == 1 || length(&alias) == 2 && alias != pair
                });
                bytes.push(u8::from(!unclear));
            }
        }
        bytes
    }

    /// Run m: for few factors among all codes, else digit by digit from the counts of runs that begin alike. The number
    /// of runs with given highest levels is the mean of a sign over the generated words, where a word counts if all its
    /// letters are among the given ones.
    pub fn run(&self, m: u64) -> Result<u64, u32> {
        if self.n <= 8 {
            let even = |code: u64| {
                let run = digits(2, self.n, code).unwrap();
                self.defining.iter().all(|word| (0..32).filter(|&i| word[i] == 1 && run[i] == 1).count() % 2 == 0)
            };
            return (0..1u64 << self.n).filter(|&code| even(code)).nth(m.min(1 << 40) as usize).ok_or(LAST);
        }
        let size = self.defined.len() as i64;
        if m >= (1u64 << self.n) / size as u64 {
            return Err(LAST);
        }
        let mut left = m as i64;
        let mut signed: Vec<(&Word, i64)> = self.defined.iter().map(|word| (word, 1)).collect();
        let mut run = 0u64;
        for i in (0..self.n as usize).rev() {
            let total: i64 = signed.iter().filter(|(word, _)| word[..i].iter().all(|&x| x == 0)).map(|(_, sign)| sign).sum();
            let low = total * (1i64 << i) / size;
            if left >= low {
                left -= low;
                run += 1 << i;
                for (word, sign) in &mut signed {
                    if word[i] == 1 {
                        *sign = -*sign;
                    }
                }
            }
        }
        Ok(run)
    }

    /// How many runs there are.
    pub fn run_count(&self) -> u64 {
        (1 << self.n) / self.defined.len() as u64
    }

    /// So many runs from a place on.
    pub fn runs(&self, first: u64, count: usize) -> Result<Vec<u64>, u32> {
        let end = u128::from(first) + count as u128;
        if u128::from(self.run_count()) < end {
            return Err(LAST);
        }
        (first..end as u64).map(|m| self.run(m)).collect()
    }

    pub fn block_number(&self, run: u64, words: &[u64]) -> Result<u64, u32> {
        let run = digits(2, self.n, run).ok_or(ILLEGAL)?;
        if words.len() > 16 {
            return Err(LIMIT);
        }
        let words: Option<Vec<Word>> = words.iter().map(|&word| digits(2, self.n, word)).collect();
        let bits = words.ok_or(ILLEGAL)?;
        let odd = |word: &Word| (0..32).filter(|&i| word[i] * run[i] == 1).count() % 2 == 1;
        Ok(bits.iter().enumerate().filter(|(_, word)| odd(word)).map(|(i, _)| 1 << i).sum())
    }

    /// The best generators of a side.
    pub fn choose(&self, side: Side, preference: Preference, costs: &[u16; 32]) -> Vec<u64> {
        let (base_list, base, wanted) = match side {
            Side::Defining => (vec![], BTreeSet::from([ZERO]), &self.defined),
            Side::Block => (self.defining.clone(), self.defined.clone(), &self.all),
        };
        let mut keys = BTreeMap::new();
        for word in wanted {
            if !keys.contains_key(word) {
                // all words of an alias set have the same tallies
                let aliases: Vec<Word> = base.iter().map(|by| sum(self.s, by, word)).collect();
                let tallies = tallies(self.n, &aliases);
                for alias in aliases {
                    keys.insert(alias, key(preference, costs, &alias, &tallies));
                }
            }
        }
        let mut ranked: Vec<(&Vec<i64>, u64, &Word)> = wanted.iter().map(|word| (&keys[word], self.code(word), word)).collect();
        if wanted.len() < SMALL {
            return self.step_by_step(base_list, &ranked);
        }
        // among words in order, each that the earlier ones do not generate
        ranked.sort();
        let mut generated = base;
        let mut chosen = vec![];
        for (_, code, word) in ranked {
            if !generated.contains(word) {
                generated = widened(self.s, &generated, word);
                chosen.push(code);
            }
        }
        chosen
    }

    /// The rule as it is stated: the best word that is not generated yet, again and again.
    fn step_by_step(&self, base: Vec<Word>, ranked: &[(&Vec<i64>, u64, &Word)]) -> Vec<u64> {
        let mut list = base;
        let mut chosen = vec![];
        loop {
            let generated = closure(self.s, &list);
            match ranked.iter().filter(|(_, _, word)| !generated.contains(*word)).min() {
                Some((_, code, word)) => {
                    chosen.push(*code);
                    list.push(**word);
                }
                None => return chosen,
            }
        }
    }

    fn shown(&self, codes: &[u64]) -> String {
        codes.iter().map(|&code| format!(" {}", letters(&digits(self.s, self.n, code).unwrap()))).collect()
    }

    pub fn page(&self) -> String {
        let resolution = match self.resolution() {
            Some((length, count)) => format!("{length} {count}"),
            None => "none".to_string(),
        };
        let pattern: String = self.pattern().iter().map(|count| format!(" {count}")).collect();
        let defining = self.shown(&self.choose(Side::Defining, Preference::Shortest, &[0; 32]));
        let block = self.shown(&self.choose(Side::Block, Preference::LeastAberration, &[0; 32]));
        let mut page = format!(
            "plan {} {} {} {}\nresolution {resolution}\npattern{pattern}\ndefining{defining}\nblocks{block}\n",
            self.s,
            self.n,
            self.defining.len(),
            self.block.len()
        );
        if self.s == 2 {
            page += &format!("clear {}\n", self.clear().iter().filter(|&&byte| byte == 1).count());
        }
        page
    }
}

/// The letters of a word: a digit above 1 stands behind its letter.
pub fn letters(word: &Word) -> String {
    let mut text = String::new();
    for (i, &digit) in word.iter().enumerate() {
        let letter = b"ABCDEFGHIJKLMNOPQRSTUVWXYZabcdef"[i] as char;
        match digit {
            0 => {}
            1 => text.push(letter),
            more => text.push_str(&format!("{letter}{more}")),
        }
    }
    text
}

/// How many words of a list have each length, 0 to n.
fn tallies(n: u8, words: &[Word]) -> Vec<i64> {
    let mut counts = vec![0; n as usize + 1];
    for word in words {
        counts[length(word)] += 1;
    }
    counts
}

/// The sum of the costs of a word's factors.
pub fn cost(costs: &[u16; 32], word: &Word) -> i64 {
    (0..32).filter(|&i| word[i] != 0).map(|i| i64::from(costs[i])).sum()
}

/// A list of numbers for a word: of two words the one with the smaller list, in the order of dictionaries, is better.
fn key(preference: Preference, costs: &[u16; 32], word: &Word, tallies: &[i64]) -> Vec<i64> {
    match preference {
        Preference::Shortest => vec![length(word) as i64],
        Preference::Cheapest => vec![cost(costs, word)],
        Preference::LeastAberration => tallies.to_vec(),
        Preference::Longest => vec![-(length(word) as i64)],
        Preference::CheapestThenLeastAberration => {
            let mut key = vec![cost(costs, word)];
            key.extend(tallies);
            key
        }
    }
}

/// The verdict on two codes: 0 equal, 1 the first is better, 2 the second.
pub fn verdict(s: u8, preference: Preference, costs: &[u16; 32], n: u8, base: &[u64], a: u64, b: u64) -> u64 {
    let words: Option<Vec<Word>> = base.iter().map(|&word| digits(s, n, word)).collect();
    let (Some(words), Some(a), Some(b)) = (words, digits(s, n, a), digits(s, n, b)) else {
        return 0;
    };
    if words.len() > limit(s) {
        return 0;
    }
    let generated = closure(s, &words);
    let key_of = |word: &Word| {
        let aliases: Vec<Word> = generated.iter().map(|by| sum(s, by, word)).collect();
        key(preference, costs, word, &tallies(n, &aliases))
    };
    match key_of(&a).cmp(&key_of(&b)) {
        std::cmp::Ordering::Less => 1,
        std::cmp::Ordering::Greater => 2,
        std::cmp::Ordering::Equal => 0,
    }
}
