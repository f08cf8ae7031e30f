//! The same questions in plain Rust, written for speed alone: words in machine words, lists of sums, elimination for membership,
//! counts in small arrays. Each word, or alias set, is judged once.

/// The arithmetic of levels on words in a packed form of their own.
pub trait Levels {
    const S: usize;
    const LIMIT: usize;

    /// The packed form of a code, if it is legal for n factors.
    fn pack(n: u8, code: u64) -> Option<u64>;
    fn code(word: u64) -> u64;
    fn add(a: u64, b: u64) -> u64;
    fn length(word: u64) -> usize;
    /// Whether the code of a is smaller than that of b.
    fn smaller(a: u64, b: u64) -> bool;
    /// The last factor of a word other than code 0, from 0.
    fn lead(word: u64) -> u32;
    /// The digit of a factor.
    fn digit(word: u64, factor: u32) -> u8;
    /// The factors whose digit is not 0, one bit each.
    fn factors(word: u64) -> u32;
    /// A word less the multiple of a row that makes its digit at the row's last factor 0. The row has digit 1 there.
    fn without(word: u64, row: u64, lead: u32) -> u64;
}

pub struct Two;

impl Levels for Two {
    const S: usize = 2;
    const LIMIT: usize = 16;

    fn pack(n: u8, code: u64) -> Option<u64> {
        (code >> n == 0).then_some(code)
    }

    fn code(word: u64) -> u64 {
        word
    }

    #[inline(always)]
    fn add(a: u64, b: u64) -> u64 {
        a ^ b
    }

    #[inline(always)]
    fn length(word: u64) -> usize {
        word.count_ones() as usize
    }

    #[inline(always)]
    fn smaller(a: u64, b: u64) -> bool {
        a < b
    }

    #[inline(always)]
    fn lead(word: u64) -> u32 {
        63 - word.leading_zeros()
    }

    #[inline(always)]
    fn digit(word: u64, factor: u32) -> u8 {
        (word >> factor & 1) as u8
    }

    #[inline(always)]
    fn factors(word: u64) -> u32 {
        word as u32
    }

    #[inline(always)]
    fn without(word: u64, row: u64, _lead: u32) -> u64 {
        word.min(word ^ row)
    }
}

/// Three levels: the factors at level 1 in the low half, those at level 2 in the high half.
pub struct Three;

impl Levels for Three {
    const S: usize = 3;
    const LIMIT: usize = 10;

    fn pack(n: u8, code: u64) -> Option<u64> {
        if n < 32 && code >> (2 * n) != 0 || code & code >> 1 & 0x5555_5555_5555_5555 != 0 {
            return None;
        }
        let mut word = 0;
        for i in 0..32 {
            word |= (code >> (2 * i) & 1) << i | (code >> (2 * i + 1) & 1) << (32 + i);
        }
        Some(word)
    }

    fn code(word: u64) -> u64 {
        let mut code = 0;
        for i in 0..32 {
            code |= (word >> i & 1) << (2 * i) | (word >> (32 + i) & 1) << (2 * i + 1);
        }
        code
    }

    #[inline(always)]
    fn add(a: u64, b: u64) -> u64 {
        let cross = a | b.rotate_left(32);
        let any = a | b;
        any.rotate_left(32) ^ cross ^ cross.rotate_left(32)
    }

    #[inline(always)]
    fn length(word: u64) -> usize {
        Self::factors(word).count_ones() as usize
    }

    #[inline(always)]
    fn smaller(a: u64, b: u64) -> bool {
        let apart = a ^ b;
        let factors = apart as u32 | (apart >> 32) as u32;
        if factors == 0 {
            return false;
        }
        let last = 31 - factors.leading_zeros();
        Self::digit(a, last) < Self::digit(b, last)
    }

    #[inline(always)]
    fn lead(word: u64) -> u32 {
        31 - (word as u32 | (word >> 32) as u32).leading_zeros()
    }

    #[inline(always)]
    fn digit(word: u64, factor: u32) -> u8 {
        ((word >> factor & 1) + 2 * (word >> (factor + 32) & 1)) as u8
    }

    #[inline(always)]
    fn factors(word: u64) -> u32 {
        word as u32 | (word >> 32) as u32
    }

    #[inline(always)]
    fn without(word: u64, row: u64, lead: u32) -> u64 {
        if word >> lead & 1 != 0 {
            // less the row: plus the row with its digits changed
            Self::add(word, row.rotate_left(32))
        } else if word >> (lead + 32) & 1 != 0 {
            Self::add(word, row)
        } else {
            word
        }
    }
}

/// How many words there are of each length.
pub type Counts = [u32; 33];

/// At most so many sums are listed at once.
const LISTED: usize = 256;

/// All sums of multiples of words.
fn sums<L: Levels>(words: &[u64]) -> Vec<u64> {
    let mut list = Vec::with_capacity(L::S.pow(words.len() as u32));
    list.push(0);
    for &word in words {
        let len = list.len();
        for i in 0..len * (L::S - 1) {
            list.push(L::add(list[i], word));
        }
    }
    list
}

/// The sums of multiples of the last words, and the words before these.
struct Spread<'a> {
    before: &'a [u64],
    leaves: Vec<u64>,
}

impl<'a> Spread<'a> {
    fn new<L: Levels>(words: &'a [u64]) -> Spread<'a> {
        let mut split = words.len();
        let mut count = 1;
        while split > 0 && count * L::S <= LISTED {
            split -= 1;
            count *= L::S;
        }
        Spread { before: &words[..split], leaves: sums::<L>(&words[split..]) }
    }

    /// Goes through a start plus each sum of multiples of the words, with one sum a word.
    #[inline(always)]
    fn walk<L: Levels>(&self, start: u64, visit: &mut impl FnMut(u64)) {
        let mut counter = [0u8; 17];
        let mut word = start;
        loop {
            for &leaf in &self.leaves {
                visit(L::add(word, leaf));
            }
            // a counter in base s: the place that goes up by one says which word is added
            let mut place = 0;
            while counter[place] == L::S as u8 - 1 && place < self.before.len() {
                word = L::add(word, self.before[place]);
                counter[place] = 0;
                place += 1;
            }
            if place >= self.before.len() {
                return;
            }
            counter[place] += 1;
            word = L::add(word, self.before[place]);
        }
    }
}

/// Goes through a start plus each sum of multiples of words, with one sum a word.
#[inline(always)]
fn walk<L: Levels>(words: &[u64], start: u64, mut visit: impl FnMut(u64)) {
    Spread::new::<L>(words).walk::<L>(start, &mut visit);
}

/// Words with different last factors, by that factor.
#[derive(Clone)]
struct Rows {
    row: [u64; 32],
}

impl Rows {
    fn new() -> Rows {
        Rows { row: [0; 32] }
    }

    /// What is left of a word: 0 at the last factor of each row.
    #[inline(always)]
    fn reduce<L: Levels>(&self, mut word: u64) -> u64 {
        let mut left = word;
        while left != 0 {
            let lead = L::lead(left);
            let row = self.row[lead as usize];
            if row != 0 {
                while L::digit(word, lead) != 0 {
                    word = L::add(word, row);
                }
            }
            let below = (1u64 << lead) - 1;
            left = word & (below | below << 32);
        }
        word
    }

    /// Whether a word is new; then it becomes a row.
    fn admit<L: Levels>(&mut self, word: u64) -> bool {
        let rest = self.reduce::<L>(word);
        if rest == 0 {
            return false;
        }
        self.row[L::lead(rest) as usize] = rest;
        true
    }

    /// The rows by ascending last factor, each reduced by the others and with digit 1 there.
    fn reduced<L: Levels>(&self) -> ([u64; 32], usize) {
        let mut rows = Rows::new();
        let mut list = [0; 32];
        let mut len = 0;
        for factor in 0..32 {
            if self.row[factor] != 0 {
                let mut row = rows.reduce::<L>(self.row[factor]);
                if L::digit(row, factor as u32) == 2 {
                    row = L::add(row, row);
                }
                rows.row[factor] = row;
                list[len] = row;
                len += 1;
            }
        }
        (list, len)
    }
}

/// A plan in packed words.
pub struct Plan {
    pub n: u8,
    words: [u64; 16],
    defining: usize,
    all: usize,
}

impl Plan {
    pub fn read<L: Levels>(file: &[u8]) -> Result<Plan, u32> {
        if file.len() < 9 {
            return Err(7);
        }
        if &file[..3] != b"DWF" {
            return Err(8);
        }
        if file[3] != 1 || file[4] != 0 {
            return Err(9);
        }
        if file[5] as usize != L::S {
            return Err(10);
        }
        let n = file[6];
        if n == 0 || n > 32 {
            return Err(1);
        }
        let (defining, all) = (file[7] as usize, file[7] as usize + file[8] as usize);
        if all > L::LIMIT {
            return Err(4);
        }
        match file.len().cmp(&(9 + 8 * all)) {
            std::cmp::Ordering::Less => return Err(7),
            std::cmp::Ordering::Greater => return Err(11),
            std::cmp::Ordering::Equal => {}
        }
        let mut plan = Plan { n, words: [0; 16], defining, all };
        let mut rows = Rows::new();
        for i in 0..all {
            let code = u64::from_le_bytes(file[9 + 8 * i..17 + 8 * i].try_into().unwrap());
            let word = L::pack(n, code).ok_or(2u32)?;
            if !rows.admit::<L>(word) {
                return Err(3);
            }
            plan.words[i] = word;
        }
        Ok(plan)
    }

    fn defining(&self) -> &[u64] {
        &self.words[..self.defining]
    }

    fn block(&self) -> &[u64] {
        &self.words[self.defining..self.all]
    }

    pub fn pattern<L: Levels>(&self) -> Counts {
        let mut counts = [0; 33];
        walk::<L>(self.defining(), 0, |word| counts[L::length(word)] += 1);
        for count in &mut counts {
            *count /= L::S as u32 - 1;
        }
        counts[0] = 0;
        counts
    }

    /// The lengths of all words that the defining words generate, added up: one sum and one population count a word.
    pub fn all_lengths<L: Levels>(&self) -> u64 {
        let mut total = 0;
        walk::<L>(self.defining(), 0, |word| total += L::length(word) as u64);
        total
    }

    /// The base list and the further words of a side.
    fn side(&self, block: bool) -> (&[u64], &[u64]) {
        if block {
            (self.defining(), self.block())
        } else {
            (&[], self.defining())
        }
    }

    /// The shortest generators of a side.
    pub fn shortest<L: Levels>(&self, block: bool) -> Chosen {
        let (base, further) = self.side(block);
        choose::<L, _>(base, further, true, L::length)
    }

    /// The longest.
    pub fn longest<L: Levels>(&self, block: bool) -> Chosen {
        let (base, further) = self.side(block);
        choose::<L, _>(base, further, true, |word| 32 - L::length(word))
    }

    /// The cheapest: the costs of eight factors are looked up at once.
    pub fn cheapest<L: Levels>(&self, block: bool, costs: &[u16; 32]) -> Chosen {
        let (base, further) = self.side(block);
        let table = Costs::new(costs);
        choose::<L, _>(base, further, true, |word| table.cost(L::factors(word)))
    }

    /// Those of least aberration: each alias set is judged once.
    pub fn least_aberration<L: Levels>(&self, block: bool) -> Chosen {
        let (base, further) = self.side(block);
        if base.is_empty() {
            return choose::<L, _>(base, further, true, |word| 32 - L::length(word));
        }
        let mut rows = Rows::new();
        for &word in base {
            rows.admit::<L>(word);
        }
        // sums of words that are reduced by the base list are reduced
        let reduced: Vec<u64> = further.iter().map(|&word| rows.reduce::<L>(word)).collect();
        let spread = Spread::new::<L>(base);
        choose::<L, _>(&[], &reduced, false, |word| {
            let mut counts = [0u32; 33];
            spread.walk::<L>(word, &mut |alias| counts[L::length(alias)] += 1);
            counts
        })
    }

    /// The cheapest, and those of least aberration among equally cheap words: alias sets are counted where costs are equal.
    pub fn cheapest_then_least_aberration<L: Levels>(&self, block: bool, costs: &[u16; 32]) -> Chosen {
        let (base, further) = self.side(block);
        let table = Costs::new(costs);
        let spread = Spread::new::<L>(base);
        choose_by::<L>(base, further, |a, b| {
            table.cost(L::factors(a)).cmp(&table.cost(L::factors(b))).then_with(|| {
                let counts = |word| {
                    let mut counts = [0u32; 33];
                    spread.walk::<L>(word, &mut |alias| counts[L::length(alias)] += 1);
                    counts
                };
                counts(a).cmp(&counts(b))
            })
        })
    }

    /// One byte for each pair of factors: 1 if it is clear; and how many are.
    pub fn clear(&self, bytes: &mut [u8; 496]) -> usize {
        let unclear = if self.defining <= 12 { self.unclear_by_words() } else { self.unclear_by_sets() };
        let n = self.n as u32;
        let mut len = 0;
        let mut ones = 0;
        for i in 0..n {
            for j in i + 1..n {
                let clear = unclear[i as usize] >> j & 1 == 0;
                bytes[len] = u8::from(clear);
                ones += usize::from(clear);
                len += 1;
            }
        }
        ones
    }

    /// The pairs of factors whose alias sets hold another word of one or two letters: words of one or two letters,
    /// sorted by the least word of their alias set.
    fn unclear_by_sets(&self) -> [u32; 32] {
        let mut rows = Rows::new();
        for &word in self.defining() {
            rows.admit::<Two>(word);
        }
        let mut least = [(0u64, 0u64); 528];
        let mut len = 0;
        let single: [u64; 32] = std::array::from_fn(|i| rows.reduce::<Two>(1 << i));
        for i in 0..self.n as usize {
            least[len] = (single[i], 1 << i);
            len += 1;
            for j in i + 1..self.n as usize {
                // reduction is linear
                least[len] = (single[i] ^ single[j], 1 << i | 1 << j);
                len += 1;
            }
        }
        let least = &mut least[..len];
        least.sort_unstable();
        let mut unclear = [0u32; 32];
        for at in 0..len {
            let alone = (at == 0 || least[at - 1].0 != least[at].0) && (at + 1 == len || least[at + 1].0 != least[at].0);
            if !alone && least[at].1.count_ones() == 2 {
                let first = least[at].1.trailing_zeros();
                unclear[first as usize] |= (least[at].1 & !(1 << first)) as u32;
            }
        }
        unclear
    }

    /// The same from the words of up to four letters, which alone make pairs unclear.
    fn unclear_by_words(&self) -> [u32; 32] {
        let mut unclear = [0u32; 32];
        walk::<Two>(self.defining(), 0, |word| {
            let letters = word.count_ones();
            if letters == 0 || letters > 4 {
                return;
            }
            let word = word as u32;
            let mut rest = word;
            while rest != 0 {
                let letter = rest.trailing_zeros();
                rest &= rest - 1;
                match letters {
                    1 => {
                        unclear[letter as usize] = !0;
                        unclear.iter_mut().for_each(|row| *row |= 1 << letter);
                    }
                    2 => {
                        let other = word & !(1 << letter);
                        unclear[letter as usize] |= !other;
                        let kept = other.trailing_zeros() as usize;
                        for (i, row) in unclear.iter_mut().enumerate() {
                            if i != kept {
                                *row |= 1 << letter;
                            }
                        }
                    }
                    _ => unclear[letter as usize] |= word,
                }
            }
        });
        unclear
    }

    /// The alias set of a word, in ascending code, as much as there is room for.
    pub fn aliases<L: Levels>(&self, code: u64, memory: &mut [u64]) -> Result<usize, u32> {
        let word = L::pack(self.n, code).ok_or(2u32)?;
        let mut rows = Rows::new();
        for &word in self.defining() {
            rows.admit::<L>(word);
        }
        let least = rows.reduce::<L>(word);
        let (list, len) = rows.reduced::<L>();
        let count = L::S.pow(len as u32).min(memory.len());
        for (m, place) in memory[..count].iter_mut().enumerate() {
            let mut member = least;
            let mut left = m;
            for &row in &list[..len] {
                match left % L::S {
                    0 => {}
                    1 => member = L::add(member, row),
                    _ => member = L::add(L::add(member, row), row),
                }
                left /= L::S;
            }
            *place = L::code(member);
        }
        Ok(count)
    }

    /// The runs from a place on, as many as there is room for.
    pub fn runs(&self, first: u64, memory: &mut [u64]) -> usize {
        // the first factor of each reduced word is settled by the others, which are free
        let mut pivot = [0u64; 32];
        for &word in self.defining() {
            let mut word = word;
            while word != 0 && pivot[word.trailing_zeros() as usize] != 0 {
                word ^= pivot[word.trailing_zeros() as usize];
            }
            if word != 0 {
                pivot[word.trailing_zeros() as usize] = word;
            }
        }
        for i in (0..32).rev() {
            for j in 0..i {
                if pivot[j] >> i & 1 == 1 && pivot[i] != 0 {
                    pivot[j] ^= pivot[i];
                }
            }
        }
        let mut free = [0u64; 32];
        let mut len = 0;
        for i in 0..self.n as usize {
            if pivot[i] == 0 {
                let mut run = 1 << i;
                for (j, word) in pivot.iter().enumerate() {
                    run |= (word >> i & 1) << j;
                }
                free[len] = run;
                len += 1;
            }
        }
        let runs = 1u64 << len;
        let count = (runs.saturating_sub(first) as usize).min(memory.len());
        for (i, place) in memory[..count].iter_mut().enumerate() {
            let mut left = first + i as u64;
            let mut run = 0;
            while left != 0 {
                run ^= free[left.trailing_zeros() as usize];
                left &= left - 1;
            }
            *place = run;
        }
        count
    }

    /// The trial page, and its length.
    pub fn page<L: Levels>(&self, memory: &mut [u8; 2048]) -> usize {
        let mut page = Page { memory, len: 0 };
        page.text(b"plan");
        for number in [L::S as u32, self.n as u32, self.defining as u32, (self.all - self.defining) as u32] {
            page.number(number);
        }
        let counts = self.pattern::<L>();
        page.text(b"\nresolution");
        match (1..=self.n as usize).find(|&length| counts[length] > 0) {
            Some(length) => {
                page.number(length as u32);
                page.number(counts[length]);
            }
            None => page.text(b" none"),
        }
        page.text(b"\npattern");
        for &count in &counts[1..=self.n as usize] {
            page.number(count);
        }
        page.text(b"\ndefining");
        let (words, len) = self.shortest::<L>(false);
        words[..len].iter().for_each(|&word| page.word::<L>(word));
        page.text(b"\nblocks");
        let (words, len) = self.least_aberration::<L>(true);
        words[..len].iter().for_each(|&word| page.word::<L>(word));
        page.text(b"\n");
        if L::S == 2 {
            page.text(b"clear");
            page.number(self.clear(&mut [0; 496]) as u32);
            page.text(b"\n");
        }
        page.len
    }
}

struct Page<'a> {
    memory: &'a mut [u8; 2048],
    len: usize,
}

impl Page<'_> {
    fn text(&mut self, bytes: &[u8]) {
        self.memory[self.len..self.len + bytes.len()].copy_from_slice(bytes);
        self.len += bytes.len();
    }

    fn number(&mut self, number: u32) {
        let mut digits = [b' '; 11];
        let mut at = 11;
        let mut left = number;
        loop {
            at -= 1;
            digits[at] = b'0' + (left % 10) as u8;
            left /= 10;
            if left == 0 {
                break;
            }
        }
        self.text(&digits[at - 1..]);
    }

    fn word<L: Levels>(&mut self, word: u64) {
        self.text(b" ");
        for factor in 0..32 {
            let letter = if factor < 26 { b'A' + factor } else { b'a' + factor - 26 };
            match L::digit(word, u32::from(factor)) {
                0 => {}
                1 => self.text(&[letter]),
                _ => self.text(&[letter, b'2']),
            }
        }
    }
}

/// Sums of the costs of eight factors at once.
struct Costs {
    sums: [[u32; 256]; 4],
}

impl Costs {
    fn new(costs: &[u16; 32]) -> Costs {
        let mut sums = [[0u32; 256]; 4];
        for (list, costs) in sums.iter_mut().zip(costs.chunks_exact(8)) {
            for (i, &cost) in costs.iter().enumerate() {
                for j in 0..1 << i {
                    list[j + (1 << i)] = list[j] + u32::from(cost);
                }
            }
        }
        Costs { sums }
    }

    #[inline(always)]
    fn cost(&self, factors: u32) -> u32 {
        self.sums[0][factors as usize & 255]
            + self.sums[1][(factors >> 8) as usize & 255]
            + self.sums[2][(factors >> 16) as usize & 255]
            + self.sums[3][(factors >> 24) as usize]
    }
}

/// Chosen words, in packed form, and how many there are.
pub type Chosen = ([u64; 16], usize);

/// Rows in the order in which they were admitted, each with its last factor, digit 1 there.
#[derive(Clone, Copy)]
struct Ladder {
    rows: [(u64, u32); 32],
    len: usize,
}

impl Ladder {
    fn new<L: Levels>(words: &[u64]) -> Ladder {
        let mut ladder = Ladder { rows: [(0, 0); 32], len: 0 };
        words.iter().for_each(|&word| {
            ladder.admit::<L>(word);
        });
        ladder
    }

    /// What the first rows leave of a word.
    #[inline(always)]
    fn left<L: Levels>(&self, count: usize, mut word: u64) -> u64 {
        for &(row, lead) in &self.rows[..count] {
            word = L::without(word, row, lead);
        }
        word
    }

    fn admit<L: Levels>(&mut self, word: u64) -> bool {
        let left = self.left::<L>(self.len, word);
        if left == 0 {
            return false;
        }
        let lead = L::lead(left);
        let row = if L::digit(left, lead) == 2 { L::add(left, left) } else { left };
        self.rows[self.len] = (row, lead);
        self.len += 1;
        true
    }
}

/// The best independent words so far, in order: by a key, the smaller first, and among equals by code.
struct Best<K> {
    base: usize,
    ladder: Ladder,
    words: Vec<(K, u64)>,
    room: usize,
}

impl<K: Ord + Copy> Best<K> {
    fn new<L: Levels>(base: &[u64], room: usize) -> Best<K> {
        let ladder = Ladder::new::<L>(base);
        Best { base: ladder.len, ladder, words: Vec::with_capacity(17), room }
    }

    #[inline(always)]
    fn ahead<L: Levels>(a: &(K, u64), b: &(K, u64)) -> bool {
        match a.0.cmp(&b.0) {
            std::cmp::Ordering::Equal => L::smaller(a.1, b.1),
            order => order.is_lt(),
        }
    }

    /// A word that stands before the last: unless those before it generate it, it is put in, and the first that this makes
    /// superfluous goes.
    #[inline(never)]
    fn put<L: Levels>(&mut self, word: (K, u64)) {
        let mut place = self.words.len();
        while place > 0 && Self::ahead::<L>(&word, &self.words[place - 1]) {
            place -= 1;
        }
        if self.ladder.left::<L>(self.base + place, word.1) == 0 {
            return;
        }
        self.ladder.len = self.base + place;
        self.ladder.admit::<L>(word.1);
        let mut superfluous = None;
        for i in place..self.words.len() {
            if !self.ladder.admit::<L>(self.words[i].1) {
                superfluous = Some(i);
            }
        }
        if let Some(i) = superfluous {
            self.words.remove(i);
        }
        self.words.insert(place, word);
    }

    #[inline(always)]
    fn offer<L: Levels>(&mut self, key: K, word: u64) {
        if self.words.len() == self.room && !Self::ahead::<L>(&(key, word), &self.words[self.room - 1]) {
            return;
        }
        self.put::<L>((key, word));
    }
}

/// Goes through the words that a base list and further words generate, and the base list does not: by the last further
/// word in them. Samples that lie far apart come first, if they are wanted: then most words are soon behind.
#[inline(always)]
fn beyond<L: Levels>(base: &[u64], further: &[u64], samples: bool, mut visit: impl FnMut(u64)) {
    further.iter().for_each(|&word| visit(word));
    if samples {
        let (first, last) = further.split_at(further.len().saturating_sub(if L::S == 2 { 6 } else { 4 }));
        let leaves = sums::<L>(last);
        let mut start = 0;
        for &word in first {
            start = L::add(start, word);
            leaves.iter().for_each(|&leaf| visit(L::add(start, leaf)));
        }
    }
    let mut before: Vec<u64> = base.to_vec();
    for &word in further {
        let spread = Spread::new::<L>(&before);
        let mut start = 0;
        for _ in 1..L::S {
            start = L::add(start, word);
            spread.walk::<L>(start, &mut visit);
        }
        before.push(word);
    }
}

/// The generators beyond a base list, in packed words: each word gets its key once, and most are behind the last of the
/// best words so far.
#[inline(always)]
fn choose<L: Levels, K: Ord + Copy>(base: &[u64], further: &[u64], samples: bool, mut key: impl FnMut(u64) -> K) -> Chosen {
    let mut best = Best::new::<L>(base, further.len());
    beyond::<L>(base, further, samples, |word| best.offer::<L>(key(word), word));
    let mut chosen = [0u64; 16];
    best.words.iter().enumerate().for_each(|(i, word)| chosen[i] = word.1);
    (chosen, best.words.len())
}

/// The same by questions about two words.
#[inline(always)]
fn choose_by<L: Levels>(base: &[u64], further: &[u64], order: impl Fn(u64, u64) -> std::cmp::Ordering) -> Chosen {
    let ahead = |a: u64, b: u64| match order(a, b) {
        std::cmp::Ordering::Equal => L::smaller(a, b),
        order => order.is_lt(),
    };
    let mut words: Vec<u64> = Vec::with_capacity(17);
    let mut ladder = Ladder::new::<L>(base);
    let known = ladder.len;
    beyond::<L>(base, further, true, |word| {
        if words.len() == further.len() && !ahead(word, words[words.len() - 1]) {
            return;
        }
        let mut place = words.len();
        while place > 0 && ahead(word, words[place - 1]) {
            place -= 1;
        }
        if ladder.left::<L>(known + place, word) == 0 {
            return;
        }
        ladder.len = known + place;
        ladder.admit::<L>(word);
        if let Some(i) = (place..words.len()).filter(|&i| !ladder.admit::<L>(words[i])).last() {
            words.remove(i);
        }
        words.insert(place, word);
    });
    let mut chosen = [0u64; 16];
    chosen[..words.len()].copy_from_slice(&words);
    (chosen, words.len())
}
