//! The public calls and the host door, as document 01 states them.

use crate::problem::{self, CALLS, Cut, DOOR, Problem};
use crate::search::{CAP, End, Search, capped};

#[derive(Clone, Copy, PartialEq, Eq, Debug)]
pub enum Phase {
    Ready,
    Solution,
    Done,
}

#[derive(Clone, Copy, PartialEq, Eq, Debug)]
pub struct State {
    pub phase: Phase,
    pub depth: u32,
    pub updates: u64,
}

pub const BLANK: State = State { phase: Phase::Ready, depth: 0, updates: 0 };

/// The lists lent; a call leaves alone those that it is not lent.
#[derive(Clone, PartialEq, Eq, Debug, Default)]
pub struct Lent {
    pub table: Vec<i32>,
    pub spare: Vec<i32>,
    pub path: Vec<i32>,
    pub profile: Vec<u64>,
    pub found: Vec<i32>,
}

/// `answer`: 0 set up, given up or solution, 20 exhausted, 21 paused, else the refusal's number.
#[derive(Clone, Copy, PartialEq, Eq, Debug)]
pub struct Outcome {
    pub answer: u32,
    pub visits: u64,
    pub state: State,
}

impl Outcome {
    fn still(answer: u32, state: State) -> Self {
        Outcome { answer, visits: 0, state }
    }
}

pub fn answer_of(end: End) -> u32 {
    match end {
        End::Solution => 0,
        End::Exhausted => 20,
        End::Paused => 21,
    }
}

/// Whether the words alone, lent all the room they need, are refused.
pub fn refusal_of_words(words: &[i32]) -> Option<u32> {
    problem::accept(words, &CALLS, |_| true).err()
}

pub fn set_up(words: &[i32], lent: &mut Lent) -> Outcome {
    let room =
        |cut: &Cut| lent.table.len() >= cut.table_words() && lent.path.len() >= cut.np && lent.profile.len() >= cut.np;
    match problem::accept(words, &CALLS, room) {
        Err(number) => Outcome::still(number, BLANK),
        Ok(problem) => {
            put(&mut lent.table, &Search::start(&problem).table_words());
            lent.path[..problem.np].fill(0);
            lent.profile[..problem.np].fill(0);
            Outcome::still(0, BLANK)
        }
    }
}

pub fn next(words: &[i32], lent: &mut Lent, state: State, allowance: u64) -> Outcome {
    let room = |cut: &Cut| lent.has_both_tables(cut) && lent.profile.len() >= cut.np && lent.found.len() >= cut.np;
    let problem = match problem::accept(words, &CALLS, room) {
        Err(number) => return Outcome::still(number, state),
        Ok(problem) => problem,
    };
    if state.updates > CAP || lent.profile[..problem.np].iter().any(|&count| count > CAP) {
        return Outcome::still(11, state);
    }
    put(&mut lent.spare, &Search::start(&problem).table_words());
    let Some(mut search) = point(&problem, lent, state) else { return Outcome::still(10, state) };
    let updates = if state.phase == Phase::Done { 0 } else { state.updates };
    let (end, visits) = search.walk(state.phase == Phase::Solution, allowance, &mut lent.profile);
    put(&mut lent.table, &search.table_words());
    lent.path[..problem.np].fill(0);
    put(&mut lent.path, &search.path());
    if end == End::Solution {
        put(&mut lent.found, &search.option_numbers());
    }
    let phase = match end {
        End::Solution => Phase::Solution,
        End::Exhausted => Phase::Done,
        End::Paused => Phase::Ready,
    };
    let state = State { phase, depth: search.path().len() as u32, updates: capped(updates, search.updates) };
    Outcome { answer: answer_of(end), visits, state }
}

pub fn give_up(words: &[i32], lent: &mut Lent, state: State) -> Outcome {
    let problem = match problem::accept(words, &CALLS, |cut| lent.has_both_tables(cut)) {
        Err(number) => return Outcome::still(number, state),
        Ok(problem) => problem,
    };
    if state.updates > CAP {
        return Outcome::still(11, state);
    }
    let fresh = Search::start(&problem).table_words();
    put(&mut lent.spare, &fresh);
    if point(&problem, lent, state).is_none() {
        return Outcome::still(10, state);
    }
    put(&mut lent.table, &fresh);
    lent.path[..problem.np].fill(0);
    Outcome::still(0, State { phase: Phase::Ready, depth: 0, ..state })
}

pub fn report(state: State, found: &[i32]) -> &[i32] {
    match state.phase {
        Phase::Solution => found.get(..state.depth as usize).unwrap_or(&[]),
        Phase::Ready | Phase::Done => &[],
    }
}

/// Little-endian words in and out; only 0 writes.
pub fn host_door(bytes: &[u8], number: u64, allowance: u64, out: &mut [u8]) -> u32 {
    let words = bytes.chunks_exact(4);
    if !words.remainder().is_empty() {
        return 4;
    }
    let words: Vec<i32> = words.map(|word| i32::from_le_bytes(word.try_into().expect("four bytes"))).collect();
    let problem = match problem::accept(&words, &DOOR, |cut| out.len() >= 4 + 4 * cut.np) {
        Err(number) => return number,
        Ok(problem) => problem,
    };
    let mut search = Search::start(&problem);
    let mut profile = vec![0; problem.np];
    let mut left = allowance;
    for already in 0..=number {
        let (end, visits) = search.walk(already > 0, left, &mut profile);
        if end != End::Solution {
            return answer_of(end);
        }
        left -= visits;
    }
    let solution = search.option_numbers();
    let written = std::iter::once(solution.len() as i32).chain(solution).flat_map(i32::to_le_bytes);
    out.iter_mut().zip(written).for_each(|(byte, new)| *byte = new);
    0
}

impl Lent {
    /// What Next and Give-up both are lent.
    fn has_both_tables(&self, cut: &Cut) -> bool {
        self.table.len() >= cut.table_words() && self.spare.len() >= cut.table_words() && self.path.len() >= cut.np
    }
}

fn put<T: Copy>(list: &mut [T], words: &[T]) {
    list[..words.len()].copy_from_slice(words);
}

/// Refusal 10: none unless table, path and state are a point of this problem's search.
fn point<'p>(problem: &'p Problem, lent: &Lent, state: State) -> Option<Search<'p>> {
    let path = &lent.path[..problem.np];
    let depth = state.depth as usize;
    if depth > problem.np || path[depth..].iter().any(|&node| node != 0) {
        return None;
    }
    let search = Search::at(problem, &path[..depth])?;
    let phase_fits = match state.phase {
        Phase::Ready => !search.is_solution(),
        Phase::Solution => search.is_solution(),
        Phase::Done => depth == 0,
    };
    (phase_fits && lent.table.starts_with(&search.table_words())).then_some(search)
}
