//! Texts, what the model makes of them, and dlx's own reader as the judge of it.

use dlx::choose::{mrv_chooser, no_tiebreak, prefer_any};
use dlx::{OptOrder, Solver, Spec, c};
use model::text::{Fault, LONGEST_TEXT, Reading, printed, read};

use crate::Random;
use crate::trace::as_options;

/// A name that no other number gives.
fn name(random: &mut Random, number: usize) -> String {
    let letter = char::from(b'a' + (number % 26) as u8);
    let mut name = if number < 26 { letter.to_string() } else { format!("{letter}{}", number / 26) };
    if random.one_in(4) {
        let at = random.below(name.len() + 1);
        name.insert(at, '#');
    }
    name
}

/// What stands between tokens.
fn gap(random: &mut Random) -> &'static str {
    random.pick(&[" ", " ", " ", "  ", "\t", " \r "])
}

fn line_of(random: &mut Random, tokens: &[String]) -> String {
    let mut line = random.pick(&["", "", "", " ", "\t"]).to_string();
    for (at, token) in tokens.iter().enumerate() {
        if at > 0 {
            line.push_str(gap(random));
        }
        line.push_str(token);
    }
    line.push_str(random.pick(&["", "", "", " ", "\r"]));
    line
}

/// A text that is sound but for what `spoil` does to it.
fn sound(random: &mut Random) -> Vec<String> {
    // Many options only for one primary item, so that no text has a great many solutions.
    let (wide, long) = (random.one_in(30), random.one_in(30));
    let np = if long { 1 } else { 1 + random.below(if wide { 70 } else { 6 }) };
    let ns = random.below(4);
    let names: Vec<String> = (0..np + ns).map(|number| name(random, number)).collect();
    let mut items = names[..np].to_vec();
    if ns > 0 {
        items.push("|".into());
        items.extend_from_slice(&names[np..]);
    }
    let mut lines = vec![line_of(random, &items)];
    let options = if long { 55 + random.below(15) } else { 1 + random.below(9) };
    for _ in 0..options {
        let mut left: Vec<usize> = (0..np + ns).collect();
        let mut tokens = Vec::new();
        for _ in 0..1 + random.below(4.min(np + ns)) {
            let item = left.remove(random.below(left.len()));
            let coloured = item >= np && random.one_in(2);
            let colour = if coloured { format!(":{}", random.pick(&["a", "b", "#", "|", "0"])) } else { String::new() };
            tokens.push(format!("{}{colour}", names[item]));
        }
        lines.push(line_of(random, &tokens));
    }
    for _ in 0..random.below(3) {
        let at = random.below(lines.len() + 1);
        lines.insert(at, random.pick(&["", " ", "\r", "| a remark: with | anything", " |x", "\t|"]).into());
    }
    lines
}

/// Puts a faulty token into a line, or takes lines away.
fn spoil(random: &mut Random, lines: &mut Vec<String>) {
    let at = random.below(lines.len());
    let mut tokens: Vec<String> = lines[at].split_whitespace().map(String::from).collect();
    let place = random.below(tokens.len() + 1);
    let token = tokens.get(place).or(tokens.last()).cloned().unwrap_or_default();
    let base = token.split(':').next().unwrap_or_default();
    let fault = match random.below(14) {
        0 => "|".into(),
        1 => "| |".into(),
        2 => "unknown".into(),
        3 => token,
        4 => format!("{base}:x"),
        5 => format!("{base}:"),
        6 => format!("{base}:xy"),
        7 => format!("{base}::"),
        8 => format!("{base}:a {base}:b"),
        9 => ":x".into(),
        10 => "a-b".into(),
        11 => random.pick(&["\u{7f}", "\u{1}", "\u{b}", "\u{c}", "\u{e9}", "\u{a0}"]).to_string(),
        12 => {
            lines.remove(at);
            return;
        }
        _ => {
            lines.truncate(random.below(2));
            return;
        }
    };
    if place < tokens.len() && random.one_in(2) {
        tokens[place] = fault;
    } else {
        tokens.push(fault);
    }
    lines[at] = line_of(random, &tokens);
}

/// A text, one in two with a fault or two put in.
pub fn any(random: &mut Random) -> Vec<u8> {
    let mut lines = sound(random);
    if random.one_in(2) {
        for _ in 0..1 + random.below(2) {
            if !lines.is_empty() {
                spoil(random, &mut lines);
            }
        }
    }
    let mut text = lines.join(random.pick(&["\n", "\n", "\r\n"]));
    if random.one_in(2) {
        text.push('\n');
    }
    text.into_bytes()
}

/// 13 items with two options each: 8,192 solutions, whose lines fill more than four of the program's pages.
pub fn several_pages() -> Vec<u8> {
    let names: Vec<String> = (0..13).map(|item| format!("n{item}")).collect();
    format!("{0}\n{1}\n{1}\n", names.join(" "), names.join("\n")).into_bytes()
}

/// At and past the longest text, the host door's limits and a page.
pub fn at_the_limits() -> Vec<Vec<u8>> {
    let padded = |length: usize| {
        let mut text = b"a\na\n".to_vec();
        text.resize(length, b' ');
        text
    };
    let items = |count: usize| {
        let names: Vec<String> = (0..count).map(|item| format!("n{item}")).collect();
        format!("{}\n{}\n", names.join(" "), names.join(" ")).into_bytes()
    };
    let options = |count: usize| format!("a\n{}", "a\n".repeat(count)).into_bytes();
    let entries = |count: usize| {
        let names: Vec<String> = (0..64).map(|item| format!("n{item}")).collect();
        let mut text = names.join(" ") + "\n";
        for at in 0..count.div_ceil(64) {
            text += &(names[..64.min(count - 64 * at)].join(" ") + "\n");
        }
        text.into_bytes()
    };
    vec![
        padded(LONGEST_TEXT),
        padded(LONGEST_TEXT + 1),
        vec![0; LONGEST_TEXT + 1],
        items(64),
        items(65),
        options(64),
        options(65),
        options(30_000),
        entries(256),
        entries(257),
        Vec::new(),
        b"\n".to_vec(),
        several_pages(),
    ]
}

/// dlx's own reader.
fn by_dlx(text: &[u8], front: bool) -> Option<c::Problem> {
    let spec = Spec::new(std::str::from_utf8(text).ok()?, front).ok()?;
    c::Problem::from_spec(&spec).ok()
}

fn missing(text: &[u8], front: bool) -> bool {
    let error = std::str::from_utf8(text).ok().and_then(|text| Spec::new(text, front).err());
    error.is_some_and(|error| ["No items specified", "No options specified"].contains(&error.to_string().as_str()))
}

/// What dlx must say of a text that the model reads so.
fn judge(text: &[u8], front: bool) {
    let shown = String::from_utf8_lossy(text);
    match read(text, front) {
        Reading::Words(words) => {
            let (np, ns, options) = as_options(&words);
            let problem = c::make_problem(np, ns, &options, OptOrder::Seq);
            assert!(by_dlx(text, front) == Some(problem), "dlx reads another problem: {shown:?}");
        }
        Reading::Missing => assert!(missing(text, front), "dlx misses nothing: {shown:?}"),
        Reading::Faulty(line, fault) => {
            let forgiven = matches!(fault, Fault::Byte | Fault::AgainOtherwise);
            assert!(forgiven || by_dlx(text, front).is_none(), "dlx takes line {line}: {shown:?}");
            // The lines before it have no fault that dlx sees.
            let before: Vec<&[u8]> = text.split(|byte| *byte == b'\n').take(line - 1).collect();
            let before = before.join(&b'\n');
            assert!(missing(&before, front) || by_dlx(&before, front).is_some(), "a line before {line}: {shown:?}");
        }
        Reading::Long => {}
    }
}

fn solutions(text: &[u8]) -> String {
    let mut problem = by_dlx(text, true).expect("judged before");
    let mut solver = Solver::new(&mut problem);
    let mut chooser = mrv_chooser(prefer_any(), no_tiebreak());
    let mut lines = String::new();
    while solver.next_solution(&mut chooser) {
        let numbers: Vec<String> = solver.fmt_solution().iter().map(i32::to_string).collect();
        lines += &(numbers.join(" ") + "\n");
    }
    lines
}

/// What a text came to, and what the program must print of it.
pub fn exercise(text: &[u8]) -> (&'static str, String) {
    judge(text, true);
    judge(text, false);
    let reading = read(text, true);
    let kind = match reading {
        Reading::Words(_) => "read",
        Reading::Faulty(_, Fault::Byte) => "refused byte",
        Reading::Faulty(_, Fault::Items) => "faulty items",
        Reading::Faulty(_, Fault::Token) => "faulty token",
        Reading::Faulty(_, Fault::Again) => "token again",
        Reading::Faulty(_, Fault::AgainOtherwise) => "item again in another token",
        Reading::Missing => "missing",
        Reading::Long => "too long",
    };
    (kind, printed(&reading, || solutions(text)))
}
