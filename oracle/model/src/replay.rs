//! The replay program over the model: one command a line in, the answer and every lent word out.

use crate::calls::{self, BLANK, Lent, Outcome, Phase, State};

pub const LONGEST_INPUT: usize = 65_536;
pub const LONGEST_PROBLEM: usize = 4_096;
pub const LONGEST_TABLE: usize = 8_192;
pub const LONGEST_LIST: usize = 256;

#[derive(Clone, PartialEq, Eq, Debug)]
pub enum Command {
    Problem(Vec<i32>),
    Lengths { table: usize, spare: usize, path: usize, profile: usize, found: usize },
    Word { list: usize, index: usize, value: i32 },
    Count { index: usize, value: u64 },
    State(State),
    SetUp,
    Next(u64),
    GiveUp,
    Report,
}

/// A number as it would be printed: no sign but a minus before a nonzero number, no leading zero.
fn number<T: std::str::FromStr + ToString>(text: &str) -> Option<T> {
    text.parse::<T>().ok().filter(|value| value.to_string() == text)
}

fn length(text: &str, longest: usize) -> Option<usize> {
    number(text).filter(|&length| length <= longest)
}

impl Command {
    pub fn read(line: &str) -> Option<Command> {
        let words: Vec<&str> = line.split(' ').collect();
        match words[..] {
            ["p", ref rest @ ..] if rest.len() <= LONGEST_PROBLEM => {
                rest.iter().map(|word| number(word)).collect::<Option<_>>().map(Command::Problem)
            }
            ["l", table, spare, path, profile, found] => Some(Command::Lengths {
                table: length(table, LONGEST_TABLE)?,
                spare: length(spare, LONGEST_TABLE)?,
                path: length(path, LONGEST_LIST)?,
                profile: length(profile, LONGEST_LIST)?,
                found: length(found, LONGEST_LIST)?,
            }),
            ["w", "3", index, value] => Some(Command::Count { index: number(index)?, value: number(value)? }),
            ["w", list, index, value] => {
                let list = number(list).filter(|&list| list <= 4)?;
                Some(Command::Word { list, index: number(index)?, value: number(value)? })
            }
            ["s", phase, depth, updates] => {
                let phase = match phase {
                    "0" => Phase::Ready,
                    "1" => Phase::Solution,
                    "2" => Phase::Done,
                    _ => return None,
                };
                Some(Command::State(State { phase, depth: number(depth)?, updates: number(updates)? }))
            }
            ["u"] => Some(Command::SetUp),
            ["n", allowance] => number(allowance).map(Command::Next),
            ["g"] => Some(Command::GiveUp),
            ["r"] => Some(Command::Report),
            _ => None,
        }
    }
}

#[derive(Clone)]
pub struct Machine {
    pub problem: Vec<i32>,
    pub lent: Lent,
    pub state: State,
}

impl Default for Machine {
    fn default() -> Self {
        Machine { problem: Vec::new(), lent: Lent::default(), state: BLANK }
    }
}

impl Machine {
    /// What the command prints, and what its call answered; none where an index lies outside its list.
    pub fn execute(&mut self, command: &Command) -> Option<(String, Option<Outcome>)> {
        match *command {
            Command::SetUp => return Some(self.called(|machine| calls::set_up(&machine.problem, &mut machine.lent))),
            Command::Next(allowance) => {
                return Some(
                    self.called(|machine| calls::next(&machine.problem, &mut machine.lent, machine.state, allowance)),
                );
            }
            Command::GiveUp => {
                return Some(self.called(|machine| calls::give_up(&machine.problem, &mut machine.lent, machine.state)));
            }
            Command::Report => return Some((line(calls::report(self.state, &self.lent.found)), None)),
            Command::Problem(ref words) => self.problem = words.clone(),
            Command::Lengths { table, spare, path, profile, found } => {
                self.lent = Lent {
                    table: vec![7; table],
                    spare: vec![7; spare],
                    path: vec![7; path],
                    profile: vec![7; profile],
                    found: vec![7; found],
                }
            }
            Command::Count { index, value } => *self.lent.profile.get_mut(index)? = value,
            Command::Word { list, index, value } => *self.list(list).get_mut(index)? = value,
            Command::State(state) => self.state = state,
        }
        Some((String::new(), None))
    }

    fn list(&mut self, list: usize) -> &mut [i32] {
        match list {
            0 => &mut self.lent.table,
            1 => &mut self.lent.spare,
            2 => &mut self.lent.path,
            4 => &mut self.lent.found,
            _ => unreachable!("list 3 has words of another type"),
        }
    }

    fn called(&mut self, call: impl Fn(&mut Machine) -> Outcome) -> (String, Option<Outcome>) {
        let outcome = call(self);
        self.state = outcome.state;
        let State { phase, depth, updates } = self.state;
        let lent = &self.lent;
        let lists = [line(&lent.table), line(&lent.spare), line(&lent.path), line(&lent.profile), line(&lent.found)];
        let head = format!("{} {} {} {depth} {updates}\n", outcome.answer, outcome.visits, phase as u8);
        (head + &lists.concat(), Some(outcome))
    }
}

fn line<T: ToString>(words: &[T]) -> String {
    words.iter().map(T::to_string).collect::<Vec<_>>().join(" ") + "\n"
}

/// The whole output for an input.
pub fn run(input: &[u8]) -> String {
    if input.len() > LONGEST_INPUT {
        return "bad 0\n".to_string();
    }
    let mut machine = Machine::default();
    let mut output = String::new();
    for (at, text) in (1..).zip(input.split_inclusive(|&byte| byte == b'\n')) {
        let read = text.strip_suffix(b"\n").and_then(|text| std::str::from_utf8(text).ok()).and_then(Command::read);
        match read.and_then(|command| machine.execute(&command)) {
            Some((printed, _)) => output += &printed,
            None => return output + &format!("bad {at}\n"),
        }
    }
    output
}
