//! The outcome of a call on an accepted problem, as dlx's trace decides it. The refusals 1 to 8 are the
//! model's alone, since dlx has none.

use model::calls::{BLANK, Lent, Outcome, Phase, State};

use crate::trace::{At, Stop, Trace};

/// Everything a call leaves behind.
#[derive(PartialEq, Eq, Debug)]
pub struct Verdict {
    pub outcome: Outcome,
    pub lent: Lent,
}

impl Verdict {
    fn still(answer: u32, state: State, lent: Lent) -> Verdict {
        Verdict { outcome: Outcome { answer, visits: 0, state }, lent }
    }
}

const CAP: u64 = 0x7fff_ffff_ffff_ffff;

fn capped(count: u64, more: u64) -> u64 {
    (u128::from(count) + u128::from(more)).min(u128::from(CAP)) as u64
}

fn put<T: Copy>(list: &mut [T], words: &[T]) {
    list[..words.len()].copy_from_slice(words);
}

impl Trace {
    pub fn set_up(&self, before: &Lent) -> Verdict {
        let mut lent = before.clone();
        if lent.table.len() < self.fresh.len() || lent.path.len() < self.np || lent.profile.len() < self.np {
            return Verdict::still(9, BLANK, lent);
        }
        put(&mut lent.table, &self.fresh);
        lent.path[..self.np].fill(0);
        lent.profile[..self.np].fill(0);
        Verdict::still(0, BLANK, lent)
    }

    pub fn next(&self, before: &Lent, state: State, allowance: u64) -> Verdict {
        let mut lent = before.clone();
        if self.is_short(&lent) || lent.profile.len() < self.np || lent.found.len() < self.np {
            return Verdict::still(9, state, lent);
        }
        if state.updates > CAP || lent.profile[..self.np].iter().any(|&count| count > CAP) {
            return Verdict::still(11, state, lent);
        }
        put(&mut lent.spare, &self.fresh);
        let Some(from) = self.stop_at(&lent, state) else { return Verdict::still(10, state, lent) };
        let (updates, start) = match self.stops[from].at {
            At::Visit => (state.updates, from),
            At::Solution => (state.updates, from + 1),
            At::End => (0, 0),
        };
        let paid = if start == 0 { 0 } else { self.stops[from].updates };
        let (visits, stop) = self.onwards(start, allowance, &mut lent.profile);
        self.leave(stop, &mut lent);
        let (answer, phase) = match stop.at {
            At::Visit => (21, Phase::Ready),
            At::Solution => (0, Phase::Solution),
            At::End => (20, Phase::Done),
        };
        let state = State { phase, depth: stop.path.len() as u32, updates: capped(updates, stop.updates - paid) };
        Verdict { outcome: Outcome { answer, visits, state }, lent }
    }

    pub fn give_up(&self, before: &Lent, state: State) -> Verdict {
        let mut lent = before.clone();
        if self.is_short(&lent) {
            return Verdict::still(9, state, lent);
        }
        if state.updates > CAP {
            return Verdict::still(11, state, lent);
        }
        put(&mut lent.spare, &self.fresh);
        if self.stop_at(&lent, state).is_none() {
            return Verdict::still(10, state, lent);
        }
        put(&mut lent.table, &self.fresh);
        lent.path[..self.np].fill(0);
        Verdict::still(0, State { phase: Phase::Ready, depth: 0, ..state }, lent)
    }

    /// The answer and the bytes left behind by the host door.
    pub fn host_door(&self, number: u64, allowance: u64, before: &[u8]) -> (u32, Vec<u8>) {
        let mut out = before.to_vec();
        if out.len() < 4 + 4 * self.np {
            return (9, out);
        }
        let (mut passed, mut visits) = (0, 0);
        for stop in &self.stops {
            match stop.at {
                At::Visit if visits == allowance => return (21, out),
                At::Visit => visits += 1,
                At::Solution if passed == number => {
                    let depth = stop.options.len() as i32;
                    let bytes: Vec<u8> =
                        [depth].iter().chain(&stop.options).flat_map(|word| word.to_le_bytes()).collect();
                    put(&mut out, &bytes);
                    return (0, out);
                }
                At::Solution => passed += 1,
                At::End => return (20, out),
            }
        }
        unreachable!("a trace ends at the end");
    }

    fn is_short(&self, lent: &Lent) -> bool {
        lent.table.len() < self.fresh.len() || lent.spare.len() < self.fresh.len() || lent.path.len() < self.np
    }

    /// The stop of dlx's search at which everything lent is as dlx had it.
    fn stop_at(&self, lent: &Lent, state: State) -> Option<usize> {
        let at = match state.phase {
            Phase::Ready => At::Visit,
            Phase::Solution => At::Solution,
            Phase::Done => At::End,
        };
        let (tried, rest) = lent.path[..self.np].split_at_checked(state.depth as usize)?;
        let fits = |stop: &Stop| stop.at == at && stop.path == tried && lent.table.starts_with(&stop.table);
        if rest.iter().any(|&node| node != 0) { None } else { self.stops.iter().position(fits) }
    }

    /// From a stop to the next solution, the end, or a visit that the allowance does not cover.
    fn onwards(&self, start: usize, allowance: u64, profile: &mut [u64]) -> (u64, &Stop) {
        for (visits, stop) in (0..).zip(&self.stops[start..]) {
            if stop.at != At::Visit || visits == allowance {
                return (visits, stop);
            }
            profile[stop.path.len()] = capped(profile[stop.path.len()], 1);
        }
        unreachable!("a trace ends at the end");
    }

    fn leave(&self, stop: &Stop, lent: &mut Lent) {
        put(&mut lent.table, &stop.table);
        lent.path[..self.np].fill(0);
        put(&mut lent.path, &stop.path);
        put(&mut lent.found, &stop.options);
    }
}
