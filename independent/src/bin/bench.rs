//! Times the library beside plain fast Rust, in one run: `bench`, or one item alone:
//! `bench --only ITEM --plan 8+8 [--side ours|fast] [--repeat 1]`. A plan of three levels is written `3:5+5`.
use independent::draw::Draw;
use independent::fast::{self, Three, Two};
use independent::library::{self, Costs};
use std::hint::black_box;
use std::time::Instant;

const SEED: u64 = 20_260_101;

const ITEMS: [&str; 17] = [
    "read",
    "lengths",
    "pattern",
    "defining-shortest",
    "defining-longest",
    "defining-cheapest",
    "defining-aberration",
    "defining-both",
    "block-shortest",
    "block-longest",
    "block-cheapest",
    "block-aberration",
    "block-both",
    "clear",
    "aliases",
    "runs",
    "page",
];

/// A choice by its name: whether it is on the block side, and the number of the preference.
fn choice(item: &str) -> Option<(u8, u8)> {
    let (side, preference) = item.split_once('-')?;
    let side = match side {
        "defining" => 0,
        "block" => 1,
        _ => return None,
    };
    let number = ["shortest", "cheapest", "aberration", "longest", "both"].iter().position(|&name| name == preference)?;
    Some((side, number as u8))
}

/// Costs of all sizes.
fn costs() -> [u16; 32] {
    let mut draw = Draw::new(SEED + 1);
    std::array::from_fn(|_| draw.below(65536) as u16)
}

/// Runs are asked for in lists of so many, spread over the range.
const RUNS_AT_ONCE: usize = 1000;
const LISTS_OF_RUNS: u64 = 100;

/// A plan of 32 factors, by its file.
struct Case {
    name: String,
    levels: u8,
    defining: u32,
    file: Vec<u8>,
    /// a word for its aliases
    word: u64,
}

/// A plan of random independent words of all factors.
fn case(name: &str) -> Case {
    let (levels, split) = match name.split_once(':') {
        Some((levels, split)) => (levels.parse().expect("levels"), split),
        None => (2u8, name),
    };
    let (defining, block) = split.split_once('+').expect("a plan such as 8+8");
    let (defining, block): (u8, u8) = (defining.parse().expect("a number"), block.parse().expect("a number"));
    let mut draw = Draw::new(SEED);
    let mut words: Vec<u64> = vec![];
    while words.len() < (defining + block) as usize {
        let mut more = words.clone();
        more.push(random_word(&mut draw, levels));
        if read(levels, &file(levels, more.len() as u8, 0, &more)).is_ok() {
            words = more;
        }
    }
    let word = random_word(&mut draw, levels);
    Case { name: name.into(), levels, defining: defining.into(), file: file(levels, defining, block, &words), word }
}

fn random_word(draw: &mut Draw, levels: u8) -> u64 {
    if levels == 2 {
        return draw.below(1 << 32);
    }
    (0..32).fold(0, |code, _| code << 2 | draw.below(3))
}

fn file(levels: u8, defining: u8, block: u8, words: &[u64]) -> Vec<u8> {
    let mut file = vec![b'D', b'W', b'F', 1, 0, levels, 32, defining, block];
    words.iter().for_each(|word| file.extend(word.to_le_bytes()));
    file
}

fn read(levels: u8, file: &[u8]) -> Result<fast::Plan, u32> {
    match levels {
        2 => fast::Plan::read::<Two>(file),
        _ => fast::Plan::read::<Three>(file),
    }
}

/// The first runs of the lists that are asked for.
fn firsts(case: &Case) -> impl Iterator<Item = u64> {
    let runs = 1u64 << (32 - case.defining);
    let step = (runs / LISTS_OF_RUNS).max(1);
    (0..LISTS_OF_RUNS).map(move |i| (i * step).min(runs.saturating_sub(RUNS_AT_ONCE as u64)))
}

/// What an item gives, as numbers.
type Given = Vec<u64>;

fn ours(case: &Case, item: &str) -> Option<Given> {
    let (levels, file) = (case.levels, &case.file[..]);
    let costs = Costs { table: costs() };
    let mut words = [0u64; 16];
    if let Some((side, preference)) = choice(item) {
        let len = library::choose(levels, file, side, preference, &costs, &mut words).unwrap() as usize;
        return Some(words[..len].to_vec());
    }
    Some(match item {
        "read" => vec![library::factors(levels, file).unwrap()],
        "pattern" => {
            let mut counts = [0u32; 32];
            library::pattern(levels, file, &mut counts).unwrap();
            counts.iter().map(|&count| count.into()).collect()
        }
        "clear" if levels == 2 => {
            let mut bytes = [0u8; 496];
            let ones = library::clear(file, &mut bytes).unwrap();
            bytes.iter().map(|&byte| byte.into()).chain([ones]).collect()
        }
        "aliases" => {
            let mut memory = vec![0; usize::from(case.levels).pow(case.defining)];
            let len = library::aliases(levels, file, case.word, &mut memory).unwrap() as usize;
            memory.truncate(len);
            memory
        }
        "runs" if levels == 2 => {
            let mut memory = vec![0; RUNS_AT_ONCE * LISTS_OF_RUNS as usize];
            for (list, first) in memory.chunks_mut(RUNS_AT_ONCE).zip(firsts(case)) {
                library::runs(file, first, list.len(), list).unwrap();
            }
            memory
        }
        "page" => {
            let mut memory = [0u8; 1024];
            let len = library::page(file, &mut memory).unwrap() as usize;
            memory[..len].iter().map(|&byte| byte.into()).collect()
        }
        _ => return None,
    })
}

fn theirs(case: &Case, item: &str) -> Option<Given> {
    match case.levels {
        2 => theirs_of::<Two>(case, item),
        _ => theirs_of::<Three>(case, item),
    }
}

fn theirs_of<L: fast::Levels>(case: &Case, item: &str) -> Option<Given> {
    let plan = fast::Plan::read::<L>(&case.file).unwrap();
    if let Some((side, preference)) = choice(item) {
        let block = side == 1;
        let (words, len) = match preference {
            0 => plan.shortest::<L>(block),
            1 => plan.cheapest::<L>(block, &costs()),
            2 => plan.least_aberration::<L>(block),
            3 => plan.longest::<L>(block),
            _ => plan.cheapest_then_least_aberration::<L>(block, &costs()),
        };
        return Some(words[..len].iter().map(|&word| L::code(word)).collect());
    }
    Some(match item {
        "read" => vec![plan.n.into()],
        // of this side alone: what one sum and one population count a word cost
        "lengths" => vec![plan.all_lengths::<L>()],
        "pattern" => plan.pattern::<L>()[1..].iter().map(|&count| count.into()).collect(),
        "clear" if L::S == 2 => {
            let mut bytes = [0u8; 496];
            let ones = plan.clear(&mut bytes) as u64;
            bytes.iter().map(|&byte| byte.into()).chain([ones]).collect()
        }
        "aliases" => {
            let mut memory = vec![0; usize::from(case.levels).pow(case.defining)];
            let len = plan.aliases::<L>(case.word, &mut memory).unwrap();
            memory.truncate(len);
            memory
        }
        "runs" if L::S == 2 => {
            let mut memory = vec![0; RUNS_AT_ONCE * LISTS_OF_RUNS as usize];
            for (list, first) in memory.chunks_mut(RUNS_AT_ONCE).zip(firsts(case)) {
                let plan = fast::Plan::read::<L>(&case.file).unwrap();
                plan.runs(first, list);
            }
            memory
        }
        "page" => {
            let mut memory = [0u8; 2048];
            let len = plan.page::<L>(&mut memory);
            memory[..len].iter().map(|&byte| byte.into()).collect()
        }
        _ => return None,
    })
}

fn seconds(call: impl Fn() -> Option<Given>) -> (f64, Option<Given>) {
    let start = Instant::now();
    let given = black_box(call());
    (start.elapsed().as_secs_f64(), given)
}

fn median(mut times: Vec<f64>) -> f64 {
    times.sort_by(f64::total_cmp);
    times[times.len() / 2]
}

fn shown(seconds: f64) -> String {
    if seconds < 1e-3 {
        format!("{:.2} us", seconds * 1e6)
    } else if seconds < 1.0 {
        format!("{:.2} ms", seconds * 1e3)
    } else {
        format!("{seconds:.2} s")
    }
}

/// Times one item on both sides in turn, and prints a line.
fn line(case: &Case, item: &str, repeat: Option<usize>) {
    let (first, given) = seconds(|| ours(case, item));
    if given.is_none() {
        return;
    }
    let (second, other) = seconds(|| theirs(case, item));
    assert!(given == other, "{item} of {} gives different answers", case.name);
    let both = first + second;
    // about a fifth of a second, at least five times, and once where an answer takes long
    let repeat = repeat.unwrap_or(if both > 0.6 { 0 } else { ((0.2 / both) as usize).clamp(5, 301) });
    let mut times = (vec![], vec![]);
    for _ in 0..repeat {
        times.0.push(seconds(|| ours(case, item)).0);
        times.1.push(seconds(|| theirs(case, item)).0);
    }
    if repeat == 0 {
        times = (vec![first], vec![second]);
    }
    let count = times.0.len();
    let (ours, fast) = (median(times.0), median(times.1));
    println!("{:20} {:8} {:>11} {:>11} {:>7.2}   {count}", item, case.name, shown(ours), shown(fast), ours / fast);
}

fn main() {
    let words: Vec<String> = std::env::args().skip(1).collect();
    let option = |name: &str| words.iter().position(|word| word == name).map(|at| words.get(at + 1).expect("a value").clone());
    let repeat = option("--repeat").map(|text| text.parse().expect("a number"));
    let plans: Vec<String> = match option("--plan") {
        Some(plan) => vec![plan],
        None => [
            "16+0", "15+1", "14+2", "12+4", "8+8", "4+12", "0+16", "3:10+0", "3:8+2", "3:5+5", "3:2+8", "3:0+10", "2+2", "3+3", "4+4", "5+5", "6+6", "7+7",
        ].map(String::from).to_vec(),
    };
    let items: Vec<String> = match option("--only") {
        Some(item) => vec![item],
        None => ITEMS.map(String::from).to_vec(),
    };
    if let Some(side) = option("--side") {
        // one side alone, for a profiler
        for plan in &plans {
            let case = case(plan);
            for item in &items {
                for _ in 0..repeat.unwrap_or(1) {
                    let given = if side == "ours" { ours(&case, item) } else { theirs(&case, item) };
                    let sum = given.iter().flatten().fold(0u64, |sum, &x| sum.wrapping_mul(31).wrapping_add(x));
                    println!("{item} {plan} {side} {sum}");
                }
            }
        }
        return;
    }
    println!("seed {SEED}, 32 factors; times are medians; each call reads the plan file");
    println!("{:20} {:8} {:>11} {:>11} {:>7}   repeats", "item", "plan", "library", "plain Rust", "ratio");
    for plan in &plans {
        let case = case(plan);
        for item in &items {
            line(&case, item, repeat);
        }
    }
}
