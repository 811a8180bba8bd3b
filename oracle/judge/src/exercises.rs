//! Sequences of calls on the problem that an author has begun.

use model::calls::{Lent, Phase, State};
use model::replay::LONGEST_LIST;
use model::search::CAP;

use crate::Random;
use crate::author::Author;

/// Next with the largest allowance; whether it came to a solution.
fn solution(author: &mut Author) -> bool {
    author.write(&format!("n {}", u64::MAX)).is_some_and(|outcome| outcome.answer == 0)
}

/// Next; whether the search goes on after it.
fn goes_on(author: &mut Author, allowance: u64) -> bool {
    author.write(&format!("n {allowance}")).is_some_and(|outcome| matches!(outcome.answer, 0 | 21))
}

/// One visit at a time to the end, which pauses at every point; then the beginning of a second round.
pub fn step_by_step(author: &mut Author) {
    author.write("u");
    while goes_on(author, 1) {}
    author.write("n 0");
    author.write("n 1");
}

/// Every solution and the end; then the first solution once more, and its report.
pub fn every_solution(author: &mut Author) {
    author.write("u");
    while solution(author) {
        author.write("r");
    }
    solution(author);
    author.write("r");
}

/// Gives up at each visit and solution of the first way down, and after the end.
pub fn give_up_everywhere(author: &mut Author) {
    author.write("u");
    let (visits, _) = author.size().unwrap_or((0, 0));
    for allowance in 0..=visits {
        let ended = author.write(&format!("n {allowance}")).is_some_and(|outcome| outcome.answer != 21);
        author.write("g");
        if ended {
            break;
        }
    }
    while goes_on(author, 2) {}
    author.write("g");
    author.write("n 1");
}

/// Each list in turn one word shorter than needed, for each call, where the program has such lists.
pub fn short_lists(author: &mut Author) {
    let Some(trace) = author.trace().filter(|trace| trace.np <= LONGEST_LIST) else { return };
    let (table, np) = (trace.fresh.len(), trace.np);
    for short in 0..5 {
        let length = |list, needed| if list == short { needed - 1 } else { needed };
        let [t, s, p, f, o] = [length(0, table), length(1, table), length(2, np), length(3, np), length(4, np)];
        author.write(&format!("l {t} {s} {p} {f} {o}"));
        each_call(author);
    }
}

pub fn each_call(author: &mut Author) {
    for call in ["u", "n 1", "g"] {
        author.write(call);
    }
}

/// Counts at the cap, near it and above it, in the state and in the profile.
pub fn counts(author: &mut Author, random: &mut Random) {
    author.write("u");
    author.write(&format!("n {}", random.below(3)));
    for updates in [CAP, CAP - 1, CAP - 3, CAP + 1, u64::MAX] {
        let State { phase, depth, .. } = author.machine.state;
        author.write(&format!("s {} {depth} {updates}", phase as u8));
        let levels = author.machine.lent.profile.len();
        if levels > 0 {
            author.write(&format!("w 3 {} {}", random.below(levels), random.pick(&[0, CAP - 1, CAP, CAP + 1])));
        }
        author.write(random.pick(&["n 1", "n 3", "g"]));
    }
}

/// A word, or the state, altered; a call; what was altered put back; a call again.
pub fn alter(author: &mut Author, random: &mut Random) {
    let restore = if random.one_in(3) { alter_state(author, random) } else { alter_word(author, random) };
    let call = random.pick(&["n 1", "n 0", "g"]);
    author.write(call);
    if author.machine.state.phase == Phase::Ready || random.one_in(2) {
        author.write(&restore);
        author.write("n 1");
    }
}

fn alter_state(author: &mut Author, random: &mut Random) -> String {
    let State { phase, depth, updates } = author.machine.state;
    let other_depth = random.pick(&[0, depth.saturating_sub(1), depth, depth + 1, u32::MAX]);
    author.write(&format!("s {} {other_depth} {updates}", random.below(3)));
    format!("s {} {depth} {updates}", phase as u8)
}

fn alter_word(author: &mut Author, random: &mut Random) -> String {
    let Lent { table, path, .. } = &author.machine.lent;
    let (list, words) = if random.one_in(3) { (2, path) } else { (0, table) };
    let at = random.below(words.len());
    let word = words[at];
    let near = random.pick(&[word.saturating_add(1), word.saturating_sub(1)]);
    let any = random.below(table.len()) as i32 / 4;
    let other = random.pick(&[0, 1, -1, near, near, any, i32::MAX, i32::MIN]);
    author.write(&format!("w {list} {at} {other}"));
    format!("w {list} {at} {word}")
}

/// Another problem's words beside this one's table and path; a call; this one's words again; a call.
fn exchange(author: &mut Author, random: &mut Random) {
    let words = author.machine.problem.clone();
    let mut other = words.clone();
    let at = random.below(words.len());
    other[at] = random.pick(&[words[at].saturating_add(1), words[at].saturating_sub(1), 0]);
    if author.word(&other) {
        author.write(random.pick(&["n 1", "n 0", "g"]));
        author.word(&words);
        author.write("n 1");
    }
}

/// A mixture of everything, from a fresh table most often, else from lists of sevens.
pub fn mixture(author: &mut Author, random: &mut Random, length: usize) {
    author.write(if random.one_in(8) { "s 0 0 0" } else { "u" });
    for _ in 0..length {
        match random.below(18) {
            0..=6 => drop(author.write(&format!("n {}", random.below(4)))),
            7 | 8 => drop(solution(author)),
            9 => drop(author.write("g")),
            10 => drop(author.write("r")),
            11 => drop(author.write("u")),
            12 | 13 if !author.machine.lent.path.is_empty() => alter(author, random),
            14 if random.one_in(4) => counts(author, random),
            15 if random.one_in(8) => short_lists(author),
            16 if !author.machine.problem.is_empty() => exchange(author, random),
            _ => drop(author.write("n 1")),
        }
    }
}
