//! Compares lists of calls: random scripts go through the program `trialplan`, and every answer, all lent memory after it and the
//! files that are written are held against the rules: `lists [seed] [cases] [case]`.
use independent::draw::Draw;
use independent::rules::{self, Plan, Preference, Side, PREFERENCES};
use std::fs;
use std::io::Write;
use std::path::{Path, PathBuf};
use std::process::{Command, Stdio};

/// A line of a script: a call, with what it is handed.
#[derive(Clone, Debug)]
enum Call {
    Start(u8),
    Read(Vec<u8>),
    Admit(Side, u64),
    Strike(Side, usize),
    Settle,
    Reopen,
    Factors,
    Counts,
    Word(Side, usize),
    List(Side),
    Generators(Side, Choice),
    Scored(Side, Choice),
    Pattern,
    Resolution,
    Alias(u64, u64),
    AliasSet(u64),
    Page,
    Clear,
    Run(u64),
    Runs(u64, usize),
    BlockNumber(u64, Vec<u64>),
    Write,
}

/// A preference, with the costs that it may need.
#[derive(Clone, Copy, Debug)]
struct Choice {
    preference: Preference,
    costs: [u16; 32],
}

impl Choice {
    fn text(&self, n: u8) -> String {
        let costs: String = self.costs.iter().take(n.clamp(1, 32) as usize).map(|cost| format!(" {cost}")).collect();
        match self.preference {
            Preference::Shortest => "shortest".into(),
            Preference::Longest => "reversed shortest".into(),
            Preference::LeastAberration => "least-aberration".into(),
            Preference::Cheapest => format!("cheapest{costs}"),
            Preference::CheapestThenLeastAberration => format!("cheapest{costs} then least-aberration"),
        }
    }
}

/// Lent memory.
#[derive(Clone)]
struct Memory {
    bytes: Vec<u8>,
    counts: Vec<u32>,
    words: Vec<u64>,
}

fn joined<T: std::fmt::Display>(numbers: &[T]) -> String {
    numbers.iter().map(|number| format!(" {number}")).collect()
}

impl Memory {
    fn text(&self) -> String {
        format!("memory:{};{};{}\n", joined(&self.bytes), joined(&self.counts), joined(&self.words))
    }
}

/// An answer at the start of memory, if it fits.
fn store<T: Copy>(answer: &[T], memory: &mut [T]) -> Result<usize, u32> {
    if memory.len() < answer.len() {
        return Err(rules::MEMORY);
    }
    memory[..answer.len()].copy_from_slice(answer);
    Ok(answer.len())
}

fn side_name(side: Side) -> &'static str {
    match side {
        Side::Defining => "defining",
        Side::Block => "block",
    }
}

/// A plan under the rules, open or settled, with the memory that is lent.
struct Session {
    plan: Plan,
    settled: bool,
    memory: Memory,
}

impl Session {
    /// What a call answers behind its line, or nothing where there is no such call.
    fn answer(&mut self, call: &Call) -> Option<String> {
        let two = self.plan.s == 2;
        let told = match (call, self.settled) {
            (Call::Start(n), false) => self.change(|plan| plan.start(*n)),
            (Call::Read(file), false) => self.change(|plan| Plan::read(plan.s, file)),
            (Call::Admit(side, code), false) => self.change(|plan| plan.admit(*side, *code)),
            (Call::Strike(side, place), false) => self.change(|plan| plan.strike(*side, *place)),
            (Call::Settle, false) => {
                self.settled = true;
                Ok(" done\n".into())
            }
            (Call::Reopen, true) => {
                self.settled = false;
                Ok(" done\n".into())
            }
            (Call::Clear | Call::Run(_) | Call::Runs(..) | Call::BlockNumber(..), true) if !two => return None,
            (Call::Start(_) | Call::Read(_) | Call::Admit(..) | Call::Strike(..) | Call::Settle | Call::Reopen, _) => return None,
            (_, false) => return None,
            (question, true) => self.ask(question),
        };
        Some(told.unwrap_or_else(|refusal| format!(" refused {refusal}\n")))
    }

    fn change(&mut self, change: impl Fn(&Plan) -> Result<Plan, u32>) -> Result<String, u32> {
        self.plan = change(&self.plan)?;
        Ok(" done\n".into())
    }

    fn ask(&mut self, question: &Call) -> Result<String, u32> {
        let plan = &self.plan;
        let memory = &mut self.memory;
        let words = |memory: &mut Memory, words: &[u64]| store(words, &mut memory.words).map(|_| format!("{}\n", joined(words)));
        match question {
            Call::Factors => Ok(format!(" {}\n", plan.n)),
            Call::Counts => Ok(format!(" {} {}\n", plan.defining.len(), plan.block.len())),
            Call::Word(side, place) => {
                let word = place.checked_sub(1).and_then(|i| plan.list(*side).get(i)).ok_or(rules::PLACE)?;
                Ok(format!(" {}\n", plan.code(word)))
            }
            Call::List(side) => {
                let list: Vec<u64> = plan.list(*side).iter().map(|word| plan.code(word)).collect();
                words(memory, &list)
            }
            Call::Generators(side, choice) => words(memory, &plan.choose(*side, choice.preference, &choice.costs)),
            Call::Scored(side, choice) => {
                let chosen = plan.choose(*side, choice.preference, &choice.costs);
                let scores: Vec<u32> = chosen
                    .iter()
                    .map(|&code| {
                        let digits = rules::digits(plan.s, plan.n, code).unwrap();
                        match choice.preference {
                            Preference::Shortest => rules::length(&digits) as u32,
                            _ => rules::cost(&choice.costs, &digits) as u32,
                        }
                    })
                    .collect();
                if memory.words.len() < chosen.len() || memory.counts.len() < chosen.len() {
                    return Err(rules::MEMORY);
                }
                store(&chosen, &mut memory.words)?;
                store(&scores, &mut memory.counts)?;
                Ok(format!("{} scores{}\n", joined(&chosen), joined(&scores)))
            }
            Call::Pattern => {
                let pattern = plan.pattern();
                store(&pattern, &mut memory.counts)?;
                Ok(format!("{}\n", joined(&pattern)))
            }
            Call::Resolution => Ok(match plan.resolution() {
                Some((length, count)) => format!(" {length} {count}\n"),
                None => " none\n".into(),
            }),
            Call::Alias(word, m) => Ok(format!(" {}\n", plan.alias_member(*word, *m)?)),
            Call::AliasSet(word) => words(memory, &plan.aliases(*word)?),
            Call::Page => {
                let page = plan.page();
                store(page.as_bytes(), &mut memory.bytes)?;
                Ok(format!("\n{page}"))
            }
            Call::Clear => {
                let pairs = plan.clear();
                store(&pairs, &mut memory.bytes)?;
                let ones = pairs.iter().filter(|&&pair| pair == 1).count();
                let text: String = pairs.iter().map(|pair| pair.to_string()).collect();
                Ok(format!(" {ones} {text}\n"))
            }
            Call::Run(m) => Ok(format!(" {}\n", plan.run(*m)?)),
            Call::Runs(first, count) => words(memory, &plan.runs(*first, *count)?),
            Call::BlockNumber(run, list) => Ok(format!(" {}\n", plan.block_number(*run, list)?)),
            Call::Write => Ok(format!(" {}\n", store(&plan.file(), &mut memory.bytes)?)),
            _ => unreachable!("a question"),
        }
    }
}

/// The line of a call; a file is named by the call's place in the list.
fn line(draw: &mut Draw, s: u8, n: u8, place: usize, call: &Call) -> String {
    let mut word = |code: u64| match rules::digits(s, n, code) {
        Some(digits) if code != 0 && draw.once_in(2) => rules::letters(&digits),
        _ => code.to_string(),
    };
    match call {
        Call::Start(n) => format!("start {n}"),
        Call::Read(_) => format!("read in{place}.dwf"),
        Call::Admit(side, code) => format!("admit {} {}", side_name(*side), word(*code)),
        Call::Strike(side, place) => format!("strike {} {place}", side_name(*side)),
        Call::Settle => "settle".into(),
        Call::Reopen => "reopen".into(),
        Call::Factors => "factors".into(),
        Call::Counts => "counts".into(),
        Call::Word(side, place) => format!("word {} {place}", side_name(*side)),
        Call::List(side) => format!("list {}", side_name(*side)),
        Call::Generators(side, choice) => format!("generators {} {}", side_name(*side), choice.text(n)),
        Call::Scored(side, choice) => format!("scored-generators {} {}", side_name(*side), choice.text(n)),
        Call::Pattern => "pattern".into(),
        Call::Resolution => "resolution".into(),
        Call::Alias(code, m) => format!("alias {} {m}", word(*code)),
        Call::AliasSet(code) => format!("alias-set {}", word(*code)),
        Call::Page => "page".into(),
        Call::Clear => "clear".into(),
        Call::Run(m) => format!("run {m}"),
        Call::Runs(first, count) => format!("runs {first} {count}"),
        Call::BlockNumber(run, list) => {
            let list: String = list.iter().map(|&code| format!(" {}", word(code))).collect();
            format!("block-number {run}{list}")
        }
        Call::Write => format!("write out{place}.dwf"),
    }
}

/// A code of n factors, mostly a legal one.
fn some_code(draw: &mut Draw, s: u8, n: u8) -> u64 {
    if draw.once_in(12) {
        return [0, draw.next(), u64::MAX, 1 << n.min(63)][draw.index(4)];
    }
    let mut word = rules::ZERO;
    for digit in word.iter_mut().take(n.min(32) as usize) {
        *digit = draw.below(u64::from(s)) as u8;
    }
    rules::code(s, &word)
}

fn some_side(draw: &mut Draw) -> Side {
    [Side::Defining, Side::Block][draw.index(2)]
}

fn some_choice(draw: &mut Draw, n: u8) -> Choice {
    let most = [1, 3, 10, 65_536][draw.index(4)];
    let mut costs = [0; 32];
    for cost in costs.iter_mut().take(n.min(32) as usize) {
        *cost = draw.below(most) as u16;
    }
    Choice { preference: PREFERENCES[draw.index(5)], costs }
}

/// A plan file, whole or damaged.
fn some_file(draw: &mut Draw, s: u8) -> Vec<u8> {
    let n = draw.from_to(1, 8) as u8;
    let mut plan = Plan::new(if draw.once_in(12) { 5 - s } else { s }, n);
    for _ in 0..draw.index(6) {
        let code = some_code(draw, plan.s, n);
        if let Ok(more) = plan.admit(some_side(draw), code) {
            plan = more;
        }
    }
    let mut file = plan.file();
    match draw.below(6) {
        0 => file.truncate(draw.index(file.len() + 1)),
        1 => file.extend((0..draw.below(300)).map(|i| i as u8)),
        2 => {
            let at = draw.index(file.len());
            file[at] ^= 1 << draw.below(8);
        }
        _ => {}
    }
    file
}

/// A call that there is in the state of the plan, mostly; else one of the other state.
fn some_call(draw: &mut Draw, session: &Session) -> Call {
    let plan = &session.plan;
    let (s, n) = (plan.s, plan.n);
    let changes = if draw.once_in(200) { session.settled } else { !session.settled };
    let side = some_side(draw);
    let words = plan.list(side).len();
    if changes {
        return match draw.below(14) {
            0 => Call::Start([0, 33, 1, 5, 7, 9][draw.index(6)]),
            1 => Call::Start(draw.from_to(1, 9) as u8),
            2 => Call::Read(some_file(draw, s)),
            3..=4 => Call::Strike(side, draw.index(words + 2)),
            5..=8 => Call::Settle,
            9 => Call::Admit(side, plan.code(plan.all.iter().nth(draw.index(plan.all.len())).unwrap())),
            _ => Call::Admit(side, some_code(draw, s, n)),
        };
    }
    let two = if draw.once_in(120) { s != 2 } else { s == 2 };
    match draw.below(if two { 24 } else { 19 }) {
        0 => Call::Factors,
        1 => Call::Counts,
        2 => Call::Word(side, draw.index(words + 2)),
        3 => Call::List(side),
        4..=6 => Call::Generators(side, some_choice(draw, n)),
        7 => {
            let mut choice = some_choice(draw, n);
            choice.preference = [Preference::Shortest, Preference::Cheapest][draw.index(2)];
            Call::Scored(side, choice)
        }
        8 => Call::Pattern,
        9 => Call::Resolution,
        10..=11 => Call::Alias(some_code(draw, s, n), draw.below(20)),
        12 => Call::AliasSet(some_code(draw, s, n)),
        13..=14 => Call::Page,
        15 => Call::Write,
        16..=18 => Call::Reopen,
        19 => Call::Clear,
        20 => Call::Run(draw.below(200)),
        21..=22 => Call::Runs(draw.below(70), draw.index(9)),
        _ => Call::BlockNumber(some_code(draw, 2, n), (0..draw.index(4)).map(|_| some_code(draw, 2, n)).collect()),
    }
}

/// One script: what it says, what it should print, the files it should write, and whether it ends without a plan.
struct Case {
    script: String,
    printed: String,
    reads: Vec<(String, Vec<u8>)>,
    writes: Vec<(String, Vec<u8>)>,
    ends: bool,
    calls: usize,
    refused: usize,
}

fn some_case(draw: &mut Draw) -> Case {
    let s = draw.from_to(2, 3) as u8;
    let room = [(137, 32, 16), (60, 6, 3), (0, 0, 0), (200, 9, 64), (1024, 32, 600)][draw.index(5)];
    let memory = Memory { bytes: vec![0; room.0], counts: vec![0; room.1], words: vec![0; room.2] };
    let mut session = Session { plan: Plan::new(s, 1), settled: false, memory };
    let mut case = Case {
        script: format!("levels {s}\nmemory {} {} {}\n", room.0, room.1, room.2),
        printed: String::new(),
        reads: vec![],
        writes: vec![],
        ends: false,
        calls: 0,
        refused: 0,
    };
    let calls = 1 + draw.index(40);
    for place in 0..calls {
        let call = some_call(draw, &session);
        let text = line(draw, s, session.plan.n, place, &call);
        case.script += &format!("{text}\n");
        if let Call::Read(file) = &call {
            case.reads.push((format!("in{place}.dwf"), file.clone()));
        }
        if case.ends {
            continue;
        }
        match session.answer(&call) {
            None => case.ends = true,
            Some(answer) => {
                case.calls += 1;
                case.refused += usize::from(answer.starts_with(" refused"));
                if matches!(call, Call::Write) && !answer.starts_with(" refused") {
                    case.writes.push((format!("out{place}.dwf"), session.plan.file()));
                }
                case.printed += &format!("{text}:{answer}{}", session.memory.text());
            }
        }
    }
    if case.ends {
        case.writes.clear();
    }
    case
}

/// What the program printed in a folder, whether it ended well, and the files that it wrote.
fn carried_out(program: &Path, folder: &Path, case: &Case) -> (String, bool, Vec<(String, Vec<u8>)>) {
    let _ = fs::remove_dir_all(folder);
    fs::create_dir_all(folder).unwrap();
    for (name, bytes) in &case.reads {
        fs::write(folder.join(name), bytes).unwrap();
    }
    let mut child = Command::new(program)
        .arg("--memory")
        .current_dir(folder)
        .stdin(Stdio::piped())
        .stdout(Stdio::piped())
        .stderr(Stdio::piped())
        .spawn()
        .unwrap();
    child.stdin.take().unwrap().write_all(case.script.as_bytes()).unwrap();
    let output = child.wait_with_output().unwrap();
    let mut written: Vec<(String, Vec<u8>)> = fs::read_dir(folder)
        .unwrap()
        .map(|entry| entry.unwrap())
        .map(|entry| (entry.file_name().into_string().unwrap(), fs::read(entry.path()).unwrap()))
        .filter(|(name, _)| name.starts_with("out"))
        .collect();
    written.sort();
    (String::from_utf8_lossy(&output.stdout).into_owned(), output.status.success(), written)
}

fn main() {
    let numbers: Vec<u64> = std::env::args().skip(1).map(|text| text.parse().expect("a number")).collect();
    let seed = numbers.first().copied().unwrap_or(1);
    let cases = numbers.get(1).copied().unwrap_or(2_000);
    let range = match numbers.get(2) {
        Some(&case) => case..case + 1,
        None => 0..cases,
    };
    let program = PathBuf::from(env!("CARGO_MANIFEST_DIR")).join("../crates/trialplan/out/trialplan").canonicalize().expect("the program is built");
    let folder = std::env::temp_dir().join(format!("lists-{}", std::process::id()));
    println!("seed {seed}, {cases} lists");
    let (mut lists, mut calls, mut refused, mut ended) = (0, 0, 0, 0);
    for number in range {
        let mut draw = Draw::of_case(seed, number);
        let mut case = some_case(&mut draw);
        case.writes.sort();
        let (printed, well, written) = carried_out(&program, &folder, &case);
        if printed != case.printed || well == case.ends || written != case.writes {
            println!("different: repeat with lists {seed} 1 {number}");
            println!("script:\n{}", case.script);
            println!("program, ended well {well}:\n{printed}");
            println!("rules, ended well {}:\n{}", !case.ends, case.printed);
            std::process::exit(1);
        }
        lists += 1;
        calls += case.calls;
        refused += case.refused;
        ended += usize::from(case.ends);
    }
    let _ = fs::remove_dir_all(&folder);
    println!("{lists} lists, {ended} of them ended by a call that there is not");
    println!("{calls} answers with all memory compared, {refused} of them refused, 0 different");
}
