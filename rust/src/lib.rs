//! Exact cover with colours for a Rust host, through the proved function `host_door`.
//!
//! A [`Problem`] has primary items, each of which a solution holds exactly once, and secondary items, which options of a
//! solution share only where both give the same colour and it is not 0. [`solution`] finds solution `number` in the order
//! of the search: the item with the fewest options left, the lowest among equals, and its options in input order.
//!
//! What is proved of `host_door`, for all bytes and numbers: it ends, stays inside its slices, and its answer and every
//! byte of the output are those that the definition says. This crate is not proved: it writes the words and reads the
//! answer. The archive is for x86-64 Linux; a call takes some 11 KB of stack and no heap.
//!
//! To build: `tools/archives` in the folder above, then `DOOR_FOLDER=../target/staticlib cargo test` here. On another
//! processor `eval "$(../oracle/cross)"` first, and `cargo test --lib --tests`, since the examples in comments need a
//! rustdoc for x86-64.
//!
//! ```
//! use tallyorchard::{Entry, Error, Problem, solution};
//!
//! // Two runs, 0 and 1, and one machine minute, 2, which they can share only under the same runtime.
//! let on = |run, runtime| vec![Entry::plain(run), Entry { item: 2, colour: runtime }];
//! let problem = Problem { primary: 2, secondary: 1, options: vec![on(0, 5), on(1, 6), on(1, 5)] };
//! assert_eq!(solution(&problem, 0, 1_000), Ok(vec![0, 2]));
//! assert_eq!(solution(&problem, 1, 1_000), Err(Error::NoSuchSolution));
//! ```

#![warn(missing_docs)]

use std::fmt;

/// Items, primary and secondary together, are at most this many.
pub const MOST_ITEMS: usize = 64;
/// Options are at most this many.
pub const MOST_OPTIONS: usize = 64;
/// Entries of all options are at most this many.
pub const MOST_ENTRIES: usize = 256;

/// An item of an option: primary ones are numbered from 0, secondary ones follow. Colour 0 means uncoloured.
#[derive(Clone, Copy, Debug, PartialEq, Eq)]
pub struct Entry {
    /// The item's number.
    pub item: i32,
    /// The colour that the option gives it: 0 or, for a secondary item, any positive number.
    pub colour: i32,
}

impl Entry {
    /// The item without a colour.
    pub const fn plain(item: i32) -> Self {
        Entry { item, colour: 0 }
    }
}

/// Options without a primary item are in no solution, and keep their place in the numbering.
#[derive(Clone, Debug, PartialEq, Eq)]
pub struct Problem {
    /// How many items are primary.
    pub primary: i32,
    /// How many items are secondary.
    pub secondary: i32,
    /// The options, each with its entries, in the order that numbers them from 0.
    pub options: Vec<Vec<Entry>>,
}

/// Why a problem is refused, under the number that the door answers.
#[derive(Clone, Copy, Debug, PartialEq, Eq)]
#[repr(u32)]
pub enum Refusal {
    /// No primary item.
    NoPrimaryItem = 1,
    /// No option.
    NoOption = 2,
    /// Too many items, options or entries.
    TooLarge = 3,
    /// A negative count, or words missing or left over.
    NotAProblem = 4,
    /// An item out of range.
    ItemOutOfRange = 5,
    /// An item twice in one option.
    ItemRepeated = 6,
    /// A colour on a primary item.
    PrimaryColoured = 7,
    /// A negative colour on a secondary item.
    ColourNegative = 8,
    /// An output too short for the depth and a number for each primary item.
    OutputShort = 9,
}

/// Why there is no solution to hand back.
#[derive(Clone, Copy, Debug, PartialEq, Eq)]
pub enum Error {
    /// The problem is refused, and no search was made.
    Refused(Refusal),
    /// The search ended before this solution.
    NoSuchSolution,
    /// A visit was due, and the allowance for the whole call was spent.
    AllowanceSpent,
}

impl Error {
    /// The error that the door's answer stands for, or none for 0.
    ///
    /// # Errors
    /// [`Error::Refused`] for 1 to 9, [`Error::NoSuchSolution`] for 20, [`Error::AllowanceSpent`] for 21.
    ///
    /// # Panics
    /// Where the number is none of the door's.
    pub fn of(answer: u32) -> Result<(), Error> {
        let refusal = match answer {
            0 => return Ok(()),
            1 => Refusal::NoPrimaryItem,
            2 => Refusal::NoOption,
            3 => Refusal::TooLarge,
            4 => Refusal::NotAProblem,
            5 => Refusal::ItemOutOfRange,
            6 => Refusal::ItemRepeated,
            7 => Refusal::PrimaryColoured,
            8 => Refusal::ColourNegative,
            9 => Refusal::OutputShort,
            20 => return Err(Error::NoSuchSolution),
            21 => return Err(Error::AllowanceSpent),
            other => panic!("the door has no answer {other}"),
        };
        Err(Error::Refused(refusal))
    }
}

impl fmt::Display for Error {
    fn fmt(&self, f: &mut fmt::Formatter<'_>) -> fmt::Result {
        match self {
            Error::Refused(refusal) => write!(f, "problem refused, number {}: {refusal:?}", *refusal as u32),
            Error::NoSuchSolution => f.write_str("no such solution"),
            Error::AllowanceSpent => f.write_str("allowance spent"),
        }
    }
}

impl std::error::Error for Error {}

/// Solution `number` of the problem, from 0, as option numbers in the order chosen. The search makes at most `allowance`
/// visits for this solution and those before it together; a visit is a point where an item is chosen.
///
/// # Errors
/// [`Error::Refused`] where the problem is none or too large, [`Error::NoSuchSolution`] where it has no more than `number`
/// solutions, [`Error::AllowanceSpent`] where another visit was due.
pub fn solution(problem: &Problem, number: u64, allowance: u64) -> Result<Vec<usize>, Error> {
    let mut out = [0; 4 + 4 * MOST_ITEMS];
    Error::of(call(&bytes(problem), number, allowance, &mut out))?;
    let mut words = out.chunks_exact(4).map(|word| u32::from_le_bytes(word.try_into().unwrap()) as usize);
    let depth = words.next().unwrap();
    Ok(words.take(depth).collect())
}

/// The problem as the door reads it. Of options and entries, the first past a limit stands for all that come after it:
/// either way the problem is too large.
fn bytes(problem: &Problem) -> Vec<u8> {
    let options = &problem.options[..problem.options.len().min(MOST_OPTIONS + 1)];
    let mut words = vec![problem.primary, problem.secondary, options.len() as i32];
    for option in options {
        let entries = &option[..option.len().min(MOST_ENTRIES + 1)];
        words.push(entries.len() as i32);
        words.extend(entries.iter().flat_map(|entry| [entry.item, entry.colour]));
    }
    words.iter().flat_map(|word| word.to_le_bytes()).collect()
}

/// The door itself: 0 with depth and option numbers over the front of `out`, 20, 21 or a refusal's number, which write nothing.
/// Problem and output are little-endian words of 32 bits. Problem words: primary, secondary and number of options; then
/// for each option its number of entries and that many pairs of item and colour.
pub fn call(problem: &[u8], number: u64, allowance: u64, out: &mut [u8]) -> u32 {
    unsafe extern "C" {
        fn host_door(
            problem: *const u8,
            problem_len: usize,
            number: u64,
            allowance: u64,
            out: *mut u8,
            out_len: usize,
        ) -> u32;
    }
    // SAFETY: each pointer comes with the length of the slice that it points into; the function keeps neither.
    unsafe { host_door(problem.as_ptr(), problem.len(), number, allowance, out.as_mut_ptr(), out.len()) }
}
