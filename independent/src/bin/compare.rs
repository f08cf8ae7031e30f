//! Compares the library with the rules on random cases: `compare [seed] [cases] [case]`.
use independent::draw::Draw;
use independent::library::{self, Answer, Costs};
use independent::rules::{self, Plan, Preference, Side, PREFERENCES};
use std::collections::BTreeMap;
use std::fmt::Debug;

const KINDS: [&str; 20] = [
    "page", "write", "start", "admit", "strike", "factors", "counts", "word", "choose", "choose scored", "verdict", "pattern",
    "resolution", "alias member", "aliases", "clear", "run", "runs", "block number", "page at the limits",
];

/// What was compared so far, and the case at hand.
struct Tally {
    seed: u64,
    case: u64,
    file: Vec<u8>,
    dear: bool,
    counts: BTreeMap<&'static str, (u64, u64)>,
}

impl Tally {
    /// One comparison: `what` tells the call, with everything but the file.
    fn compare<T: PartialEq + Debug>(&mut self, kind: &'static str, what: impl Fn() -> String, refused: bool, ours: T, theirs: T) {
        if ours != theirs {
            println!("different: {kind}");
            println!("repeat with: compare {} 1 {}", self.seed, self.case);
            println!("file: {}", hex(&self.file));
            println!("call: {}", what());
            println!("library: {ours:?}");
            println!("rules:   {theirs:?}");
            std::process::exit(1);
        }
        assert!(KINDS.contains(&kind));
        let count = self.counts.entry(kind).or_default();
        count.0 += 1;
        count.1 += u64::from(refused);
    }

    /// A call that answers a number.
    fn number(&mut self, kind: &'static str, what: impl Fn() -> String, ours: Answer, theirs: Answer) {
        self.compare(kind, what, theirs.is_err(), ours, theirs);
    }

    /// A call that writes into memory: the value, and all of the memory afterwards.
    fn memory<T: Copy + PartialEq + Debug>(
        &mut self,
        kind: &'static str,
        what: impl Fn() -> String,
        before: &[T],
        call: impl Fn(&mut [T]) -> Answer,
        theirs: Result<(Vec<T>, u64), u32>,
    ) {
        let mut now = before.to_vec();
        let ours = call(&mut now);
        let mut then = before.to_vec();
        let answer = match theirs {
            Err(refusal) => Err(refusal),
            Ok((content, _)) if content.len() > before.len() => Err(rules::MEMORY),
            Ok((content, value)) => {
                then[..content.len()].copy_from_slice(&content);
                Ok(value)
            }
        };
        let call = || format!("{} with memory {before:?}", what());
        self.compare(kind, call, answer.is_err(), (ours, now), (answer, then));
    }
}

fn hex(bytes: &[u8]) -> String {
    bytes.iter().map(|byte| format!("{byte:02x}")).collect()
}

/// Random memory: as long as the answer, one shorter, longer, or empty; mostly long enough where an answer is dear.
fn lent<T>(draw: &mut Draw, dear: bool, right: usize, make: impl Fn(u64) -> T) -> Vec<T> {
    let room = match draw.below(8) {
        0..=1 if dear && !draw.once_in(4) => right,
        0 => right.saturating_sub(1),
        1 => 0,
        2..=4 => right,
        _ => right + 1 + draw.index(5),
    };
    (0..room).map(|_| make(draw.next())).collect()
}

fn length_of<T>(answer: &Result<Vec<T>, u32>) -> usize {
    answer.as_ref().map_or(3, Vec::len)
}

fn with_length<T>(answer: Result<Vec<T>, u32>) -> Result<(Vec<T>, u64), u32> {
    answer.map(|content| {
        let length = content.len() as u64;
        (content, length)
    })
}

/// A random code, mostly a legal one.
fn some_code(draw: &mut Draw, s: u8, n: u8) -> u64 {
    let bits = if s == 2 { 1 } else { 2 };
    let width = u64::from(n) * bits;
    match draw.below(12) {
        0 => draw.next(),
        1 => 1u64.checked_shl(width as u32).unwrap_or(u64::MAX),
        2 => draw.next() & (u64::MAX >> (63 - width.min(63))),
        3 => 0,
        _ => legal_code(draw, s, n),
    }
}

fn legal_code(draw: &mut Draw, s: u8, n: u8) -> u64 {
    let mut word = rules::ZERO;
    for digit in word.iter_mut().take(n.min(32) as usize) {
        *digit = draw.below(u64::from(s)) as u8;
    }
    rules::code(s, &word)
}

/// A random plan whose words generate at most so many words.
fn some_plan(draw: &mut Draw, s: u8, n: u8, words: usize) -> Plan {
    let mut plan = Plan::new(s, n);
    let defining = draw.index(words + 1);
    for i in 0..words {
        let side = if i < defining { Side::Defining } else { Side::Block };
        for _ in 0..3 {
            if let Ok(more) = plan.admit(side, legal_code(draw, s, n)) {
                plan = more;
                break;
            }
        }
    }
    plan
}

/// A file with something wrong in it, or not.
fn damaged(draw: &mut Draw, plan: &Plan) -> Vec<u8> {
    let mut file = plan.file();
    let words = plan.defining.len() + plan.block.len();
    let spoiled = |draw: &mut Draw, file: &mut Vec<u8>, code: u64| {
        if words > 0 {
            let at = 9 + 8 * draw.index(words);
            file[at..at + 8].copy_from_slice(&code.to_le_bytes());
        }
    };
    match draw.below(13) {
        0 => file.truncate(draw.index(file.len() + 1)),
        1 => file.truncate(draw.index(10)),
        2 => file.extend((0..=draw.below(9)).map(|i| i as u8)),
        3 => file[draw.index(3)] = draw.next() as u8,
        4 => file[3 + draw.index(2)] = draw.below(3) as u8,
        5 => file[5] = draw.below(6) as u8,
        6 => file[6] = draw.below(40) as u8,
        7 => file[7 + draw.index(2)] = draw.below(20) as u8,
        8 => file[7 + draw.index(2)] = draw.next() as u8,
        9 => {
            for _ in 0..=draw.below(3) {
                let at = draw.index(file.len());
                file[at] ^= 1 << draw.below(8);
            }
        }
        10 => {
            let generated: Vec<_> = plan.all.iter().collect();
            let code = plan.code(generated[draw.index(generated.len())]);
            spoiled(draw, &mut file, code);
        }
        11 => {
            let code = some_code(draw, plan.s, plan.n);
            spoiled(draw, &mut file, code);
        }
        _ => spoiled(draw, &mut file, 0),
    }
    file
}

fn costs(draw: &mut Draw) -> Costs {
    let most = [1, 3, 10, 65_536][draw.index(4)];
    let mut table = [0; 32];
    for cost in &mut table {
        *cost = draw.below(most) as u16;
    }
    if draw.once_in(10) {
        table = [65_535; 32];
    }
    Costs { table }
}

/// A number from `known` up, which stands for nothing, but now and then only; else the number itself.
fn number_or_unknown(draw: &mut Draw, number: usize, known: u64) -> u8 {
    if draw.once_in(20) {
        draw.from_to(known, 255) as u8
    } else {
        number as u8
    }
}

fn side_number(draw: &mut Draw, side: Side) -> u8 {
    number_or_unknown(draw, usize::from(side == Side::Block), 2)
}

fn side_by(number: u8) -> Result<Side, u32> {
    match number {
        0 => Ok(Side::Defining),
        1 => Ok(Side::Block),
        _ => Err(rules::UNKNOWN),
    }
}

fn preference_by(number: u8) -> Result<Preference, u32> {
    PREFERENCES.get(usize::from(number)).copied().ok_or(rules::UNKNOWN)
}

/// The score of a word by the number of a scored preference.
fn score_by(number: u8) -> Result<fn(&[u16; 32], &rules::Word) -> u32, u32> {
    match number {
        0 => Ok(|_, word| rules::length(word) as u32),
        1 => Ok(|costs, word| rules::cost(costs, word) as u32),
        _ => Err(rules::UNKNOWN),
    }
}

fn levels_by(number: u8) -> Result<u8, u32> {
    match number {
        2 | 3 => Ok(number),
        _ => Err(rules::UNKNOWN),
    }
}

/// A number that stands for no levels.
fn unknown_levels(draw: &mut Draw) -> u8 {
    [0, 1, 4, 22, 255][draw.index(5)]
}

/// The levels to draw codes of: those of a number, or two.
fn levels_of(number: u8) -> u8 {
    levels_by(number).unwrap_or(2)
}

fn page_of(file: &[u8]) -> Result<Vec<u8>, u32> {
    let s = if file.get(5) == Some(&3) { 3 } else { 2 };
    Plan::read(s, file).map(|plan| plan.page().into_bytes())
}

fn pages(t: &mut Tally, draw: &mut Draw) {
    let file = t.file.clone();
    let page = page_of(&file);
    let room = lent(draw, t.dear, length_of(&page), |x| x as u8);
    t.memory("page", || "page".into(), &room, |memory| library::page(&file, memory), with_length(page));
}

fn changes(t: &mut Tally, draw: &mut Draw, levels: u8, plan: &Result<Plan, u32>) {
    let file = t.file.clone();
    let s = levels_of(levels);
    let n = plan.as_ref().map_or(4, |plan| plan.n);

    let written = plan.as_ref().map(Plan::file).map_err(|&e| e);
    if let Ok(bytes) = &written {
        assert_eq!(bytes, &file);
    }
    let room = lent(draw, t.dear, length_of(&written), |x| x as u8);
    t.memory("write", || format!("write, levels {levels}"), &room, |memory| library::write(levels, &file, memory), with_length(written));

    let anew = draw.below(36) as u8;
    let started = plan.clone().and_then(|plan| plan.start(anew)).map(|plan| plan.file());
    let room = lent(draw, t.dear, length_of(&started), |x| x as u8);
    t.memory("start", || format!("start {anew}, levels {levels}"), &room, |memory| library::start(levels, &file, anew, memory), with_length(started));

    for drawn in [Side::Defining, Side::Block] {
        let number = side_number(draw, drawn);
        let side = side_by(number);
        let asked = side.and(plan.clone());
        let code = match plan {
            Ok(plan) if draw.once_in(4) => plan.code(plan.all.iter().nth(draw.index(plan.all.len())).unwrap()),
            _ => some_code(draw, s, n),
        };
        let admitted = asked.clone().and_then(|plan| plan.admit(side?, code)).map(|plan| plan.file());
        let room = lent(draw, t.dear, length_of(&admitted), |x| x as u8);
        let what = || format!("admit {code} on side {number}, levels {levels}");
        t.memory("admit", what, &room, |memory| library::admit(levels, &file, number, code, memory), with_length(admitted));

        let words = plan.as_ref().map_or(3, |plan| plan.list(drawn).len());
        let place = if draw.once_in(20) { usize::MAX } else { draw.index(words + 2) };
        let struck = asked.clone().and_then(|plan| plan.strike(side?, place)).map(|plan| plan.file());
        let room = lent(draw, t.dear, length_of(&struck), |x| x as u8);
        let what = || format!("strike {place} on side {number}, levels {levels}");
        t.memory("strike", what, &room, |memory| library::strike(levels, &file, number, place, memory), with_length(struck));

        let list = asked.and_then(|plan| Ok(plan.list(side?).clone()));
        let what = || format!("count of side {number}, levels {levels}");
        t.number("counts", what, library::count(levels, &file, number), list.clone().map(|list| list.len() as u64));
        let word = list.and_then(|list| match place.checked_sub(1).and_then(|i| list.get(i)) {
            Some(word) => Ok(rules::code(s, word)),
            None => Err(rules::PLACE),
        });
        let what = || format!("word {place} of side {number}, levels {levels}");
        t.number("word", what, library::word(levels, &file, number, place), word);
    }
    let theirs = plan.as_ref().map(|plan| u64::from(plan.n)).map_err(|&e| e);
    t.number("factors", || format!("factors, levels {levels}"), library::factors(levels, &file), theirs);
}

fn choices(t: &mut Tally, draw: &mut Draw, levels: u8, plan: &Result<Plan, u32>) {
    let file = t.file.clone();
    let s = levels_of(levels);
    for side in [Side::Defining, Side::Block] {
        for preference in 0..PREFERENCES.len() {
            let costs = costs(draw);
            let side_number = side_number(draw, side);
            let number = number_or_unknown(draw, preference, PREFERENCES.len() as u64);
            let chosen = side_by(side_number).and_then(|side| {
                let preference = preference_by(number)?;
                plan.as_ref().map(|plan| plan.choose(side, preference, &costs.table)).map_err(|&e| e)
            });
            let room = lent(draw, t.dear, length_of(&chosen), |x| x);
            let what = || format!("choose on side {side_number} by {number} with {costs:?}, levels {levels}");
            let call = |memory: &mut [u64]| library::choose(levels, &file, side_number, number, &costs, memory);
            t.memory("choose", what, &room, call, with_length(chosen.clone()));

            let before = (lent(draw, t.dear, length_of(&chosen), |x| x), lent(draw, t.dear, length_of(&chosen), |x| x as u32));
            let mut now = before.clone();
            let ours = library::choose_scored(levels, &file, side_number, number, &costs, &mut now.0, &mut now.1);
            let mut then = before.clone();
            let theirs = score_by(number).and_then(|score| {
                let words = chosen?;
                if words.len() > then.0.len() || words.len() > then.1.len() {
                    return Err(rules::MEMORY);
                }
                for (i, &word) in words.iter().enumerate() {
                    let digits = rules::digits(s, 32, word).unwrap();
                    then.0[i] = word;
                    then.1[i] = score(&costs.table, &digits);
                }
                Ok(words.len() as u64)
            });
            let what = || format!("choose scored on side {side_number} by {number} with {costs:?}, levels {levels}, memory {before:?}");
            t.compare("choose scored", what, theirs.is_err(), (ours, now), (theirs, then));
        }
    }
}

fn verdicts(t: &mut Tally, draw: &mut Draw) {
    let levels = if draw.once_in(12) { unknown_levels(draw) } else { draw.from_to(2, 3) as u8 };
    let s = levels_of(levels);
    let n = if draw.once_in(12) { draw.below(40) as u8 } else { draw.from_to(1, 7) as u8 };
    let count = if draw.once_in(10) { rules::limit(s) - 1 + draw.index(3) } else { draw.index(5) };
    let mut base: Vec<u64> = (0..count).map(|_| legal_code(draw, s, n)).collect();
    if count > 5 && n > 6 {
        base.iter_mut().for_each(|word| *word = base_word(*word));
    }
    if count > 0 && draw.once_in(8) {
        let at = draw.index(count);
        base[at] = some_code(draw, s, n);
    }
    for _ in 0..4 {
        for preference in 0..PREFERENCES.len() {
            let costs = costs(draw);
            let (a, b) = (some_code(draw, s, n), some_code(draw, s, n));
            let number = number_or_unknown(draw, preference, PREFERENCES.len() as u64);
            let ours = library::verdict(levels, number, &costs, n, &base, a, b);
            let theirs = levels_by(levels).and_then(|s| Ok(rules::verdict(s, preference_by(number)?, &costs.table, n, &base, a, b)));
            let what = || format!("verdict by {number} with {costs:?} on {a} and {b}, {n} factors, base {base:?}, levels {levels}");
            t.compare("verdict", what, theirs.is_err(), ours, theirs);
        }
    }
}

/// A word of the first four factors, so that long lists generate few words.
fn base_word(word: u64) -> u64 {
    word & 0xf
}

fn questions(t: &mut Tally, draw: &mut Draw, levels: u8, plan: &Result<Plan, u32>) {
    let file = t.file.clone();
    let s = levels_of(levels);
    let n = plan.as_ref().map_or(4, |plan| plan.n);

    let pattern = plan.as_ref().map(Plan::pattern).map_err(|&e| e);
    let room = lent(draw, t.dear, length_of(&pattern), |x| x as u32);
    t.memory("pattern", || format!("pattern, levels {levels}"), &room, |memory| library::pattern(levels, &file, memory), with_length(pattern));

    let resolution = plan.as_ref().map(|plan| plan.resolution().unwrap_or((0, 0))).map_err(|&e| e);
    let ours = (library::resolution(levels, &file), library::resolution_count(levels, &file));
    let theirs = (resolution.map(|(length, _)| u64::from(length)), resolution.map(|(_, count)| u64::from(count)));
    t.compare("resolution", || format!("resolution, levels {levels}"), resolution.is_err(), ours, theirs);

    let word = some_code(draw, s, n);
    let aliases = plan.as_ref().map_err(|&e| e).and_then(|plan| plan.aliases(word));
    let last = length_of(&aliases) as u64;
    for m in (0..last.min(40)).chain([last, last + 1 + draw.below(9), draw.next()]) {
        let theirs = match &aliases {
            Ok(set) if m < last => Ok(set[m as usize]),
            Ok(_) => Err(rules::LAST),
            Err(refusal) => Err(*refusal),
        };
        let what = || format!("alias member {m} of {word}, levels {levels}");
        t.number("alias member", what, library::alias_member(levels, &file, word, m), theirs);
    }

    let room = lent(draw, t.dear, last as usize, |x| x);
    let call = |memory: &mut [u64]| library::aliases(levels, &file, word, memory);
    t.memory("aliases", || format!("aliases of {word}, levels {levels}"), &room, call, with_length(aliases));
}

/// The questions of two levels, which read any file as one of two levels.
fn two_levels(t: &mut Tally, draw: &mut Draw) {
    let file = t.file.clone();
    let plan = Plan::read(2, &file);
    let n = plan.as_ref().map_or(4, |plan| plan.n);

    let clear = plan.as_ref().map(Plan::clear).map_err(|&e| e);
    let room = lent(draw, t.dear, length_of(&clear), |x| x as u8);
    let theirs = clear.map(|bytes| {
        let ones = bytes.iter().filter(|&&byte| byte == 1).count() as u64;
        (bytes, ones)
    });
    t.memory("clear", || "clear".into(), &room, |memory| library::clear(&file, memory), theirs);

    let runs = plan.as_ref().map_or(1, Plan::run_count);
    for m in [0, runs - 1, runs, draw.below(runs), draw.below(runs), runs + draw.below(100), draw.next()] {
        let theirs = plan.as_ref().map_err(|&e| e).and_then(|plan| plan.run(m));
        t.number("run", || format!("run {m}"), library::run(&file, m), theirs);
    }

    let first = [0, draw.below(runs), runs.saturating_sub(draw.below(4)), draw.next()][draw.index(4)];
    let count = if draw.once_in(20) { usize::MAX } else { draw.index(5) };
    let theirs = plan.as_ref().map_err(|&e| e).and_then(|plan| plan.runs(first, count));
    let room = lent(draw, t.dear, length_of(&theirs), |x| x);
    let call = |memory: &mut [u64]| library::runs(&file, first, count, memory);
    t.memory("runs", || format!("{count} runs from {first}"), &room, call, with_length(theirs));

    for _ in 0..3 {
        let run = some_code(draw, 2, n);
        let count = if draw.once_in(5) { 15 + draw.index(4) } else { draw.index(5) };
        let mut words: Vec<u64> = (0..count).map(|_| legal_code(draw, 2, n)).collect();
        if count > 0 && draw.once_in(6) {
            words[draw.index(count)] = some_code(draw, 2, n);
        }
        let theirs = plan.as_ref().map_err(|&e| e).and_then(|plan| plan.block_number(run, &words));
        let what = || format!("block number of run {run} under {words:?}");
        t.number("block number", what, library::block_number(&file, run, &words), theirs);
    }
}

/// Small plans, with all questions.
fn small(t: &mut Tally, draw: &mut Draw) {
    let s = draw.from_to(2, 3) as u8;
    let n = if draw.once_in(15) { draw.from_to(1, 32) } else { draw.from_to(1, 9) } as u8;
    let most = if s == 2 { 8 } else { 5 };
    let words = draw.index(most).max(draw.index(most)).min(n as usize);
    let plan = some_plan(draw, s, n, words);
    t.file = if draw.once_in(4) { damaged(draw, &plan) } else { plan.file() };
    let levels = match draw.below(20) {
        0 => 5 - s,
        1 => unknown_levels(draw),
        _ => s,
    };
    let read = levels_by(levels).and_then(|s| Plan::read(s, &t.file));
    pages(t, draw);
    changes(t, draw, levels, &read);
    choices(t, draw, levels, &read);
    questions(t, draw, levels, &read);
    if s == 2 || draw.once_in(10) {
        two_levels(t, draw);
    }
    verdicts(t, draw);
}

/// Full plans of 32 factors, or close to that.
fn limits(t: &mut Tally, draw: &mut Draw) {
    let s = draw.from_to(2, 3) as u8;
    let n = if draw.once_in(3) { draw.from_to(17, 32) } else { 32 } as u8;
    let limit = rules::limit(s);
    let words = if draw.once_in(4) { limit - 1 } else { limit };
    let mut plan = Plan::new(s, n);
    let defining = [0, 1, 5, 8, limit - 2, limit - 1, limit][draw.index(7)].min(words);
    while plan.defining.len() + plan.block.len() < words {
        let side = if plan.defining.len() < defining { Side::Defining } else { Side::Block };
        if let Ok(more) = plan.admit(side, legal_code(draw, s, n)) {
            plan = more;
        }
    }
    t.file = plan.file();
    let levels = s;
    let page = plan.page().into_bytes();
    let room = lent(draw, t.dear, page.len(), |x| x as u8);
    let file = t.file.clone();
    t.memory("page at the limits", || "page".into(), &room, |memory| library::page(&file, memory), with_length(Ok(page)));
    let read = Ok(plan);
    changes(t, draw, levels, &read);
    choices(t, draw, levels, &read);
    questions(t, draw, levels, &read);
    if s == 2 {
        two_levels(t, draw);
    }
}

/// One case in so many is at the limits.
const RARE: u64 = 4000;

fn main() {
    let numbers: Vec<u64> = std::env::args().skip(1).map(|text| text.parse().expect("a number")).collect();
    let seed = numbers.first().copied().unwrap_or_else(|| {
        let now = std::time::SystemTime::now().duration_since(std::time::UNIX_EPOCH).unwrap();
        now.as_nanos() as u64 % 1_000_000_007
    });
    let cases = numbers.get(1).copied().unwrap_or(40_000);
    println!("seed {seed}, {cases} cases");
    let mut t = Tally { file: vec![], seed, case: 0, dear: false, counts: BTreeMap::new() };
    let range = match numbers.get(2) {
        Some(&case) => case..case + 1,
        None => 0..cases,
    };
    let mut full = 0;
    for case in range {
        t.case = case;
        t.dear = case % RARE == RARE - 1;
        let mut draw = Draw::of_case(seed, case);
        if t.dear {
            full += 1;
            limits(&mut t, &mut draw);
        } else {
            small(&mut t, &mut draw);
        }
    }
    for kind in KINDS {
        let (compared, refused) = t.counts.get(kind).copied().unwrap_or_default();
        println!("{kind}: {compared} compared, {refused} of them refused");
    }
    println!("plans at the limits: {full}");
    let total: u64 = t.counts.values().map(|count| count.0).sum();
    println!("{total} compared, 0 different");
}
