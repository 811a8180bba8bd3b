//! Writes a list of replay commands. Each is run on the model as it is written, and judged by dlx.

use std::collections::BTreeMap;

use model::calls::{Outcome, refusal_of_words};
use model::replay::{Command, LONGEST_LIST, LONGEST_TABLE, Machine};

use crate::trace::Trace;
use crate::verdict::Verdict;

/// Searches with more stops are left out of the lists.
pub const MOST_STOPS: usize = 3_000;

#[derive(Default)]
pub struct Tally {
    pub problems: u64,
    pub accepted: u64,
    /// Visits and solutions of dlx's whole searches of the accepted ones.
    pub visits: u64,
    pub solutions: u64,
    pub calls: u64,
    /// Calls on accepted words, which dlx judged; the words of the others are refused as 1 to 8, or were as 9 before that.
    pub judged: u64,
    /// By the command's letter, or `d` for the host door.
    pub answers: BTreeMap<(char, u32), u64>,
}

#[derive(Default)]
pub struct Author {
    pub input: String,
    pub output: String,
    pub machine: Machine,
    trace: Option<Trace>,
    pub tally: Tally,
}

/// One of the first words, if it can be a number of items; else as though it were 1.
fn head(words: &[i32], at: usize) -> usize {
    words.get(at).map_or(1, |&word| if (0..=1_024).contains(&word) { word as usize } else { 1 })
}

/// Room for a faulty problem, so that its fault is reached: each entry takes two words and each option one.
fn most_table_words(words: &[i32]) -> usize {
    let n = head(words, 0) + head(words, 1);
    6 * (n + 2) + 4 * words.len()
}

impl Author {
    /// Begins a problem with room enough, and some to spare, in every list. False if its search is too long.
    pub fn lend(&mut self, words: &[i32], spare_room: usize) -> bool {
        if !self.word(words) {
            return false;
        }
        let table = match (refusal_of_words(words), &self.trace) {
            (_, Some(trace)) => trace.fresh.len(),
            (Some(5..=8), None) => most_table_words(words),
            (_, None) => 8,
        };
        let table = (table + spare_room).min(LONGEST_TABLE);
        let list = (head(words, 0) + spare_room).min(LONGEST_LIST);
        self.tally.problems += 1;
        if let Some((visits, solutions)) = self.size() {
            self.tally.accepted += 1;
            self.tally.visits += visits as u64;
            self.tally.solutions += solutions as u64;
        }
        self.write(&format!("l {table} {table} {list} {list} {list}"));
        true
    }

    /// Other problem words beside the same lists and state. False, and nothing written, if their search is too long.
    pub fn word(&mut self, words: &[i32]) -> bool {
        let is_refused = refusal_of_words(words).is_some();
        let trace = if is_refused { None } else { Trace::of(words, MOST_STOPS) };
        if trace.is_none() && !is_refused {
            return false;
        }
        self.trace = trace;
        self.write(&words.iter().fold("p".to_string(), |line, word| format!("{line} {word}")));
        true
    }

    /// Adds a line, runs it and has its outcome judged.
    pub fn write(&mut self, line: &str) -> Option<Outcome> {
        let command = Command::read(line).unwrap_or_else(|| panic!("no command: {line}"));
        let before = self.machine.clone();
        let (printed, outcome) = self.machine.execute(&command).unwrap_or_else(|| panic!("outside its list: {line}"));
        self.input += line;
        self.input.push('\n');
        self.output += &printed;
        if let Some(outcome) = outcome {
            self.tally.calls += 1;
            *self.tally.answers.entry((line.chars().next().unwrap_or(' '), outcome.answer)).or_default() += 1;
            self.judge(&command, &before, outcome);
        }
        outcome
    }

    fn judge(&mut self, command: &Command, before: &Machine, outcome: Outcome) {
        let left = Verdict { outcome, lent: self.machine.lent.clone() };
        let Some(trace) = &self.trace else {
            assert!((1..=9).contains(&outcome.answer), "accepted: {:?}", before.problem);
            assert_eq!(left.lent, before.lent, "a refusal wrote: {:?}", before.problem);
            return;
        };
        self.tally.judged += 1;
        let verdict = match *command {
            Command::SetUp => trace.set_up(&before.lent),
            Command::Next(allowance) => trace.next(&before.lent, before.state, allowance),
            Command::GiveUp => trace.give_up(&before.lent, before.state),
            _ => unreachable!("only calls are judged"),
        };
        assert_eq!(left, verdict, "model and dlx differ at {command:?} of {:?}", before.problem);
    }

    /// Visits and solutions of the whole search by dlx; none where the problem is refused.
    pub fn size(&self) -> Option<(usize, usize)> {
        self.trace.as_ref().map(Trace::size)
    }

    pub fn trace(&self) -> Option<&Trace> {
        self.trace.as_ref()
    }
}

impl std::fmt::Display for Tally {
    fn fmt(&self, out: &mut std::fmt::Formatter) -> std::fmt::Result {
        let Tally { problems, accepted, visits, solutions, calls, judged, answers } = self;
        writeln!(out, "{problems} problems; {accepted} accepted, with {visits} visits and {solutions} solutions")?;
        write!(out, "  {calls} calls, {judged} of them on accepted words and judged by dlx; answers")?;
        for call in ['u', 'n', 'g', 'd'] {
            let mut of_call = answers.range((call, 0)..=(call, u32::MAX)).peekable();
            if of_call.peek().is_some() {
                write!(out, "\n  {call}:")?;
            }
            for ((_, answer), count) in of_call {
                write!(out, " {answer}: {count},")?;
            }
        }
        Ok(())
    }
}

impl Tally {
    pub fn add(&mut self, other: &Tally) {
        self.problems += other.problems;
        self.accepted += other.accepted;
        self.visits += other.visits;
        self.solutions += other.solutions;
        self.calls += other.calls;
        self.judged += other.judged;
        for (&answer, &count) in &other.answers {
            *self.answers.entry(answer).or_default() += count;
        }
    }
}
