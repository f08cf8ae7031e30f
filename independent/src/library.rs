//! The library's exports, as safe functions. An answer is a value, or the number of a refusal.

pub type Answer = Result<u64, u32>;

#[repr(C)]
struct Outcome {
    refusal: u32,
    value: u64,
}

/// The costs of 32 factors, factor 1 first.
#[repr(C)]
#[derive(Clone, Copy, Debug, PartialEq)]
pub struct Costs {
    pub table: [u16; 32],
}

extern "C" {
    fn zorilla_page(file: *const u8, bytes: usize, memory: *mut u8, room: usize) -> Outcome;
    fn zorilla_start(levels: u8, file: *const u8, bytes: usize, n: u8, memory: *mut u8, room: usize) -> Outcome;
    fn zorilla_admit(levels: u8, file: *const u8, bytes: usize, side: u8, word: u64, memory: *mut u8, room: usize) -> Outcome;
    fn zorilla_strike(levels: u8, file: *const u8, bytes: usize, side: u8, place: usize, memory: *mut u8, room: usize) -> Outcome;
    fn zorilla_write(levels: u8, file: *const u8, bytes: usize, memory: *mut u8, room: usize) -> Outcome;
    fn zorilla_choose(levels: u8, file: *const u8, bytes: usize, side: u8, preference: u8, costs: *const Costs, memory: *mut u64, room: usize) -> Outcome;
    fn zorilla_choose_scored(levels: u8, file: *const u8, bytes: usize, side: u8, preference: u8, costs: *const Costs, words: *mut u64, words_room: usize, scores: *mut u32, scores_room: usize) -> Outcome;
    fn zorilla_verdict(levels: u8, preference: u8, costs: *const Costs, n: u8, base: *const u64, words: usize, a: u64, b: u64) -> Outcome;
    fn zorilla_factors(levels: u8, file: *const u8, bytes: usize) -> Outcome;
    fn zorilla_count(levels: u8, file: *const u8, bytes: usize, side: u8) -> Outcome;
    fn zorilla_word(levels: u8, file: *const u8, bytes: usize, side: u8, place: usize) -> Outcome;
    fn zorilla_pattern(levels: u8, file: *const u8, bytes: usize, memory: *mut u32, room: usize) -> Outcome;
    fn zorilla_resolution(levels: u8, file: *const u8, bytes: usize) -> Outcome;
    fn zorilla_resolution_count(levels: u8, file: *const u8, bytes: usize) -> Outcome;
    fn zorilla_alias_member(levels: u8, file: *const u8, bytes: usize, word: u64, m: u64) -> Outcome;
    fn zorilla_aliases(levels: u8, file: *const u8, bytes: usize, word: u64, memory: *mut u64, room: usize) -> Outcome;
    fn zorilla_runs(file: *const u8, bytes: usize, first: u64, count: usize, memory: *mut u64, room: usize) -> Outcome;
    fn zorilla_clear(file: *const u8, bytes: usize, memory: *mut u8, room: usize) -> Outcome;
    fn zorilla_run(file: *const u8, bytes: usize, m: u64) -> Outcome;
    fn zorilla_block_number(file: *const u8, bytes: usize, run: u64, words: *const u64, count: usize) -> Outcome;
}

fn answer(outcome: Outcome) -> Answer {
    match outcome.refusal {
        0 => Ok(outcome.value),
        number => {
            assert_eq!(outcome.value, 0, "a refusal has value 0");
            Err(number)
        }
    }
}

// A slice's pointer is valid for its length, and no function keeps one.

pub fn page(file: &[u8], memory: &mut [u8]) -> Answer {
    answer(unsafe { zorilla_page(file.as_ptr(), file.len(), memory.as_mut_ptr(), memory.len()) })
}

pub fn start(levels: u8, file: &[u8], n: u8, memory: &mut [u8]) -> Answer {
    answer(unsafe { zorilla_start(levels, file.as_ptr(), file.len(), n, memory.as_mut_ptr(), memory.len()) })
}

pub fn admit(levels: u8, file: &[u8], side: u8, word: u64, memory: &mut [u8]) -> Answer {
    answer(unsafe { zorilla_admit(levels, file.as_ptr(), file.len(), side, word, memory.as_mut_ptr(), memory.len()) })
}

pub fn strike(levels: u8, file: &[u8], side: u8, place: usize, memory: &mut [u8]) -> Answer {
    answer(unsafe { zorilla_strike(levels, file.as_ptr(), file.len(), side, place, memory.as_mut_ptr(), memory.len()) })
}

pub fn write(levels: u8, file: &[u8], memory: &mut [u8]) -> Answer {
    answer(unsafe { zorilla_write(levels, file.as_ptr(), file.len(), memory.as_mut_ptr(), memory.len()) })
}

pub fn choose(levels: u8, file: &[u8], side: u8, preference: u8, costs: &Costs, memory: &mut [u64]) -> Answer {
    answer(unsafe { zorilla_choose(levels, file.as_ptr(), file.len(), side, preference, costs, memory.as_mut_ptr(), memory.len()) })
}

#[allow(clippy::too_many_arguments)]
pub fn choose_scored(levels: u8, file: &[u8], side: u8, preference: u8, costs: &Costs, words: &mut [u64], scores: &mut [u32]) -> Answer {
    answer(unsafe {
        zorilla_choose_scored(levels, file.as_ptr(), file.len(), side, preference, costs, words.as_mut_ptr(), words.len(), scores.as_mut_ptr(), scores.len())
    })
}

pub fn verdict(levels: u8, preference: u8, costs: &Costs, n: u8, base: &[u64], a: u64, b: u64) -> Answer {
    answer(unsafe { zorilla_verdict(levels, preference, costs, n, base.as_ptr(), base.len(), a, b) })
}

pub fn factors(levels: u8, file: &[u8]) -> Answer {
    answer(unsafe { zorilla_factors(levels, file.as_ptr(), file.len()) })
}

pub fn count(levels: u8, file: &[u8], side: u8) -> Answer {
    answer(unsafe { zorilla_count(levels, file.as_ptr(), file.len(), side) })
}

pub fn word(levels: u8, file: &[u8], side: u8, place: usize) -> Answer {
    answer(unsafe { zorilla_word(levels, file.as_ptr(), file.len(), side, place) })
}

pub fn pattern(levels: u8, file: &[u8], memory: &mut [u32]) -> Answer {
    answer(unsafe { zorilla_pattern(levels, file.as_ptr(), file.len(), memory.as_mut_ptr(), memory.len()) })
}

pub fn resolution(levels: u8, file: &[u8]) -> Answer {
    answer(unsafe { zorilla_resolution(levels, file.as_ptr(), file.len()) })
}

pub fn resolution_count(levels: u8, file: &[u8]) -> Answer {
    answer(unsafe { zorilla_resolution_count(levels, file.as_ptr(), file.len()) })
}

pub fn alias_member(levels: u8, file: &[u8], word: u64, m: u64) -> Answer {
    answer(unsafe { zorilla_alias_member(levels, file.as_ptr(), file.len(), word, m) })
}

pub fn clear(file: &[u8], memory: &mut [u8]) -> Answer {
    answer(unsafe { zorilla_clear(file.as_ptr(), file.len(), memory.as_mut_ptr(), memory.len()) })
}

pub fn run(file: &[u8], m: u64) -> Answer {
    answer(unsafe { zorilla_run(file.as_ptr(), file.len(), m) })
}

pub fn block_number(file: &[u8], run: u64, words: &[u64]) -> Answer {
    answer(unsafe { zorilla_block_number(file.as_ptr(), file.len(), run, words.as_ptr(), words.len()) })
}

pub fn aliases(levels: u8, file: &[u8], word: u64, memory: &mut [u64]) -> Answer {
    answer(unsafe { zorilla_aliases(levels, file.as_ptr(), file.len(), word, memory.as_mut_ptr(), memory.len()) })
}

pub fn runs(file: &[u8], first: u64, count: usize, memory: &mut [u64]) -> Answer {
    answer(unsafe { zorilla_runs(file.as_ptr(), file.len(), first, count, memory.as_mut_ptr(), memory.len()) })
}
