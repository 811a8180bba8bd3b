//! The proved search, by the functions of `libtimed.a`, on lists lent to it.

use crate::{Contestant, Problem, Turn, as_options, timed};

unsafe extern "C" {
    fn timed_set_up(
        problem: *const i32,
        problem_len: usize,
        table: *mut i32,
        table_len: usize,
        path: *mut i32,
        path_len: usize,
        profile: *mut u64,
        profile_len: usize,
    ) -> u32;

    fn timed_walk(
        problem: *const i32,
        problem_len: usize,
        table: *mut i32,
        table_len: usize,
        path: *mut i32,
        path_len: usize,
        profile: *mut u64,
        profile_len: usize,
        number: u64,
    ) -> u32;

    fn timed_next(
        problem: *const i32,
        problem_len: usize,
        table: *mut i32,
        table_len: usize,
        spare: *mut i32,
        spare_len: usize,
        path: *mut i32,
        path_len: usize,
        profile: *mut u64,
        profile_len: usize,
        found: *mut i32,
        found_len: usize,
        most: u64,
    ) -> u64;
}

const FOUND: u32 = 0;
const EXHAUSTED: u32 = 20;

/// The lists lent, of the lengths that the problem asks.
struct Lent<'a> {
    words: &'a [i32],
    table: Vec<i32>,
    spare: Vec<i32>,
    path: Vec<i32>,
    profile: Vec<u64>,
    found: Vec<i32>,
}

// SAFETY, of each call: every pointer comes with the length of the list that it points into, the lists are distinct,
// and the function keeps none.
impl<'a> Lent<'a> {
    fn new(problem: &'a Problem) -> Self {
        let (np, ns, options) = as_options(&problem.words);
        let (np, items) = (np as usize, (np + ns) as usize);
        let nodes = items + 2 + options.len() + options.iter().map(Vec::len).sum::<usize>();
        let words = 2 * (items + 2) + 4 * nodes;
        Self {
            words: &problem.words,
            table: vec![0; words],
            spare: vec![0; words],
            path: vec![0; np],
            profile: vec![0; np],
            found: vec![0; np],
        }
    }

    fn set_up(mut self) -> Self {
        let refusal = unsafe {
            timed_set_up(
                self.words.as_ptr(),
                self.words.len(),
                self.table.as_mut_ptr(),
                self.table.len(),
                self.path.as_mut_ptr(),
                self.path.len(),
                self.profile.as_mut_ptr(),
                self.profile.len(),
            )
        };
        assert_eq!(refusal, 0);
        self
    }

    fn walk(&mut self, number: u64) -> u32 {
        unsafe {
            timed_walk(
                self.words.as_ptr(),
                self.words.len(),
                self.table.as_mut_ptr(),
                self.table.len(),
                self.path.as_mut_ptr(),
                self.path.len(),
                self.profile.as_mut_ptr(),
                self.profile.len(),
                number,
            )
        }
    }

    fn next(&mut self, most: u64) -> u64 {
        unsafe {
            timed_next(
                self.words.as_ptr(),
                self.words.len(),
                self.table.as_mut_ptr(),
                self.table.len(),
                self.spare.as_mut_ptr(),
                self.spare.len(),
                self.path.as_mut_ptr(),
                self.path.len(),
                self.profile.as_mut_ptr(),
                self.profile.len(),
                self.found.as_mut_ptr(),
                self.found.len(),
                most,
            )
        }
    }
}

/// That the loop finds the last solution, once before the rounds: a turn sees only that there is no further one.
pub fn check(problem: &Problem) {
    assert_eq!(Lent::new(problem).walk(problem.solutions - 1), FOUND);
}

/// The loop of the search alone, asked for a solution more than there are. It sets up once more.
fn walk(problem: &Problem) -> Turn {
    let lent = Lent::new(problem);
    timed(
        || lent.set_up(),
        |lent| {
            assert_eq!(lent.walk(problem.solutions), EXHAUSTED);
            problem.solutions
        },
    )
}

/// A call of Next for each solution, and one for the end.
fn next(problem: &Problem) -> Turn {
    let lent = Lent::new(problem);
    timed(|| lent.set_up(), |lent| lent.next(u64::MAX))
}

/// Next writes the option numbers of each solution, the loop alone does not.
pub fn contestant(has_numbers: bool) -> Contestant {
    if has_numbers {
        Contestant { name: "timed_next", takes_colours: true, turn: next }
    } else {
        Contestant { name: "timed_walk", takes_colours: true, turn: walk }
    }
}
