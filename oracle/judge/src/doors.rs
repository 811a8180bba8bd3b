//! Calls of the host door: bytes in, a number and bytes out.

use model::calls::host_door;

use crate::Random;
use crate::author::{MOST_STOPS, Tally};
use crate::problems;
use crate::trace::Trace;

/// The project's door, behind a safe signature.
pub type Door = fn(&[u8], u64, u64, &mut [u8]) -> u32;

const UNWRITTEN: u8 = 0xa5;

/// One call: the problem's bytes, the solution's number, the allowance, the length of the output.
pub struct Call {
    pub bytes: Vec<u8>,
    pub number: u64,
    pub allowance: u64,
    pub room: usize,
}

impl Call {
    pub fn random(words: &[i32], random: &mut Random) -> Call {
        let mut bytes: Vec<u8> = words.iter().flat_map(|word| word.to_le_bytes()).collect();
        if random.one_in(16) {
            bytes.truncate(random.below(bytes.len() + 1));
        }
        let np = words.first().map_or(0, |&np| np.clamp(0, 1_024) as usize);
        let exact = 4 + 4 * np;
        let many = random.below(12) as u64;
        Call {
            bytes,
            number: random.pick(&[0, 0, 0, 1, 2, 3, many, u64::MAX]),
            allowance: random.pick(&[0, 1, 2, 3, many, 1_000, u64::MAX, u64::MAX]),
            room: random.pick(&[exact, exact, exact, exact + 7, exact + 7, exact + 64, exact + 64, exact - 1, 0, 4]),
        }
    }

    /// The model's answer and bytes, held to dlx and to the project's door where there are such.
    pub fn judge(&self, trace: Option<&Trace>, door: Option<Door>) -> u32 {
        let mut out = vec![UNWRITTEN; self.room];
        let answer = host_door(&self.bytes, self.number, self.allowance, &mut out);
        if let Some(trace) = trace {
            let judged = trace.host_door(self.number, self.allowance, &vec![UNWRITTEN; self.room]);
            assert_eq!((answer, &out), (judged.0, &judged.1), "model and dlx differ at {}", self.text());
        } else {
            assert!((1..=9).contains(&answer), "accepted: {}", self.text());
            assert!(out.iter().all(|&byte| byte == UNWRITTEN), "a refusal wrote: {}", self.text());
        }
        if let Some(door) = door {
            let mut written = vec![UNWRITTEN; self.room];
            let answered = door(&self.bytes, self.number, self.allowance, &mut written);
            assert_eq!((answered, &written), (answer, &out), "the door and the model differ at {}", self.text());
        }
        answer
    }

    fn text(&self) -> String {
        format!("number {} allowance {} room {} bytes {:?}", self.number, self.allowance, self.room, self.bytes)
    }
}

/// dlx's search of the bytes where the door accepts them, given room enough. Nothing at all if it is too long.
fn search_of(bytes: &[u8]) -> Option<Option<Trace>> {
    let mut enough = vec![UNWRITTEN; 4 + 4 * 64];
    if !matches!(host_door(bytes, 0, 0, &mut enough), 0 | 20 | 21) {
        return Some(None);
    }
    let words: Vec<i32> =
        bytes.chunks_exact(4).map(|word| i32::from_le_bytes([word[0], word[1], word[2], word[3]])).collect();
    Trace::of(&words, MOST_STOPS).map(Some)
}

/// One problem for the door, and what came of the calls on it.
pub struct Caller<'a> {
    words: &'a [i32],
    bytes: Vec<u8>,
    trace: Option<Trace>,
    door: Option<Door>,
    pub tally: Tally,
}

impl<'a> Caller<'a> {
    /// None if the problem's search is too long.
    pub fn new(words: &'a [i32], door: Option<Door>) -> Option<Self> {
        let bytes: Vec<u8> = words.iter().flat_map(|word| word.to_le_bytes()).collect();
        let trace = search_of(&bytes)?;
        let mut tally = Tally { problems: 1, ..Tally::default() };
        if let Some(trace) = &trace {
            let (visits, solutions) = trace.size();
            (tally.accepted, tally.visits, tally.solutions) = (1, visits as u64, solutions as u64);
        }
        Some(Caller { words, bytes, trace, door, tally })
    }

    /// A few calls, some with only the front of the bytes. False if a search is too long.
    pub fn at_random(&mut self, random: &mut Random) -> bool {
        (0..4).all(|_| self.call(&Call::random(self.words, random)))
    }

    /// Each solution and one more, each allowance up to the end, and an output one byte short.
    pub fn each_call(&mut self) {
        let np = self.words.first().map_or(0, |&np| np.clamp(0, 1_024) as usize);
        let exact = 4 + 4 * np;
        let (visits, solutions) = self.trace.as_ref().map_or((0, 0), Trace::size);
        let by_number = (0..=solutions as u64).map(|number| (number, u64::MAX, exact));
        let by_allowance = (0..=visits as u64).map(|allowance| (solutions as u64, allowance, exact));
        for (number, allowance, room) in by_number.chain(by_allowance).chain([(0, u64::MAX, exact - 1)]) {
            let is_made = self.call(&Call { bytes: self.bytes.clone(), number, allowance, room });
            assert!(is_made, "the search is known");
        }
    }

    fn call(&mut self, call: &Call) -> bool {
        let part;
        let trace = if call.bytes == self.bytes {
            &self.trace
        } else {
            let Some(trace) = search_of(&call.bytes) else { return false };
            part = trace;
            &part
        };
        let answer = call.judge(trace.as_ref(), self.door);
        self.tally.calls += 1;
        self.tally.judged += u64::from(trace.is_some());
        *self.tally.answers.entry(('d', answer)).or_default() += 1;
        true
    }
}

/// The door's own limits: items, options and entries at each and one beyond.
pub fn at_the_limits() -> Vec<Vec<i32>> {
    let one = |np: i32, ns: i32| problems::words(np, ns, &vec![vec![(0, 0)]]);
    let options = |count: usize| problems::words(1, 0, &vec![vec![(0, 0)]; count]);
    let entries = |last: i32| {
        let full: Vec<(i32, i32)> = (0..16).map(|item| (item, 0)).collect();
        let mut options = vec![full; 16];
        options.push((0..last).map(|item| (item, 0)).collect());
        problems::words(16, 0, &options)
    };
    vec![
        one(1, 63),
        one(1, 64),
        one(64, 0),
        one(65, 0),
        one(i32::MAX, i32::MAX),
        options(64),
        options(65),
        entries(0),
        entries(1),
    ]
}
