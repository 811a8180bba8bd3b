//! Many problems through the model and dlx, and through the project's replay program or host door.

use std::io::Write;
use std::process::{Command, Stdio};

use judge::author::{Author, Tally};
use judge::doors::{self, Caller, Door};
use judge::trace::{At, Trace};
use judge::{Random, bad, exercises, problems, streams, texts};
use model::replay::LONGEST_INPUT;

const RANDOM_PROBLEMS: usize = 100_000;

/// Scripts of whole problems, run together by one start of the program.
struct Batch<'a> {
    program: Option<&'a str>,
    scripts: Vec<(String, String)>,
    length: usize,
    runs: u64,
    tally: Tally,
}

impl Batch<'_> {
    fn add(&mut self, author: Author) {
        self.tally.add(&author.tally);
        if self.program.is_none() {
            return;
        }
        if self.length + author.input.len() > LONGEST_INPUT {
            self.flush();
        }
        self.length += author.input.len();
        self.scripts.push((author.input, author.output));
    }

    fn flush(&mut self) {
        let Some(program) = self.program else { return };
        let input: String = self.scripts.iter().map(|(input, _)| input.as_str()).collect();
        let written = run(program, input.into_bytes());
        let mut rest = &written[..];
        for (input, output) in &self.scripts {
            match rest.strip_prefix(output.as_bytes()) {
                Some(after) => rest = after,
                None => fail(input, output, rest),
            }
        }
        assert!(rest.is_empty(), "more was written than asked: {}", String::from_utf8_lossy(rest));
        self.scripts.clear();
        self.length = 0;
        self.runs += 1;
    }
}

fn run(program: &str, input: Vec<u8>) -> Vec<u8> {
    let child = Command::new("sh").args(["-c", program]).stdin(Stdio::piped()).stdout(Stdio::piped()).spawn();
    let mut child = child.expect("the program starts");
    let mut stdin = child.stdin.take().expect("its input is a pipe");
    let writer = std::thread::spawn(move || stdin.write_all(&input));
    let output = child.wait_with_output().expect("the program ends");
    assert!(output.status.success(), "{program} ended with {}", output.status);
    // A program may end before it has read everything.
    writer.join().expect("the writer ends").ok();
    output.stdout
}

fn fail(input: &str, output: &str, written: &[u8]) -> ! {
    let written = String::from_utf8_lossy(written);
    let differing = output.lines().zip(written.lines()).position(|(expected, found)| expected != found);
    let at = differing.unwrap_or_else(|| written.lines().count());
    eprintln!("script:\n{input}line {} of its output differs", at + 1);
    eprintln!("expected: {}", output.lines().nth(at).unwrap_or("nothing"));
    eprintln!("written:  {}", written.lines().nth(at).unwrap_or("nothing"));
    std::process::exit(1);
}

/// Inputs with a line that is no command, each by a start of its own.
fn bad_inputs(program: &str) {
    let inputs = bad::inputs();
    for input in &inputs {
        let (expected, written) = (model::replay::run(input), run(program, input.clone()));
        let shown = String::from_utf8_lossy(&input[..input.len().min(80)]);
        assert_eq!(String::from_utf8_lossy(&written), expected, "input {shown:?}");
    }
    println!("inputs at the edge of the form: {}", inputs.len());
}

fn compare(program: Option<&str>, count: usize, seed: u64) {
    let mut batch = Batch { program, scripts: Vec::new(), length: 0, runs: 0, tally: Tally::default() };
    random_problems(&mut batch, count, seed);
    println!("random: {}\n  {} runs", batch.tally, batch.runs);
    (batch.tally, batch.runs) = (Tally::default(), 0);
    every_tiny_problem(&mut batch);
    println!("every tiny one: {}\n  {} runs", batch.tally, batch.runs);
}

fn random_problems(batch: &mut Batch, count: usize, seed: u64) {
    let mut random = Random::new(seed);
    let mut made = 0;
    while made < count {
        let mut author = Author::default();
        let spare_room = random.pick(&[0, 0, 1, 3]);
        if !author.lend(&problems::any(&mut random), spare_room) {
            continue;
        }
        match random.below(8) {
            0 => exercises::every_solution(&mut author),
            1 if author.size().is_none_or(|(visits, _)| visits < 40) => exercises::step_by_step(&mut author),
            _ => {
                let length = 3 + random.below(6);
                exercises::mixture(&mut author, &mut random, length);
            }
        }
        if author.input.len() <= LONGEST_INPUT {
            batch.add(author);
            made += 1;
        }
    }
    batch.flush();
}

/// Every list of a few words, and every problem of a few items and options.
fn tiny_ones() -> impl Iterator<Item = Vec<i32>> {
    let sizes = [(1, 0, 5), (1, 1, 4), (1, 2, 2), (2, 0, 5), (2, 1, 4), (2, 2, 2), (3, 0, 4), (3, 1, 3)];
    let structured = sizes.into_iter().flat_map(|(np, ns, most)| problems::every_problem(np, ns, most));
    problems::every_list(8).chain(structured)
}

fn every_tiny_problem(batch: &mut Batch) {
    for words in tiny_ones() {
        let mut author = Author::default();
        assert!(author.lend(&words, 0), "a tiny problem has a short search");
        if author.trace().is_some() {
            exercises::step_by_step(&mut author);
        } else {
            exercises::each_call(&mut author);
        }
        batch.add(author);
    }
    batch.flush();
}

/// The known figures for queens: eight by dlx with every stop taken down, ten by the model and by dlx alone.
fn figures() {
    let trace = Trace::of(&problems::queens(8), usize::MAX).expect("no bound");
    let count = |at| trace.stops.iter().filter(|stop| stop.at == at).count();
    let end = trace.stops.last().expect("the end");
    println!(
        "eight queens: {} solutions, {} visits, {} updates, profile {:?}",
        count(At::Solution),
        count(At::Visit),
        end.updates,
        trace.profile
    );
    assert_eq!((count(At::Solution), count(At::Visit), end.updates), (92, 1_107, 21_121));
    assert_eq!(trace.profile, [1, 8, 42, 138, 274, 298, 210, 136]);
    let (solutions, visits, updates) = counts_of_model(&problems::queens(10));
    println!("ten queens, by the model: {solutions} solutions, {visits} visits, {updates} updates");
    assert_eq!((solutions, visits, updates), (724, 15_724, 308_947));
    assert_eq!(counts_of_dlx(&problems::queens(10)), (724, 15_724, 308_947));
}

fn counts_of_model(words: &[i32]) -> (u64, u64, u64) {
    let problem = model::problem::accept(words, &model::problem::CALLS, |_| true).expect("a sound problem");
    let mut search = model::search::Search::start(&problem);
    let mut profile = vec![0; problem.np];
    let mut solutions = 0;
    while search.walk(solutions > 0, u64::MAX, &mut profile).0 == model::search::End::Solution {
        solutions += 1;
    }
    (solutions, profile.iter().sum(), search.updates)
}

fn counts_of_dlx(words: &[i32]) -> (u64, u64, u64) {
    use dlx::choose::{mrv_chooser, no_tiebreak, prefer_any};
    let (np, ns, options) = judge::trace::as_options(words);
    let mut problem = dlx::c::make_problem(np, ns, &options, dlx::OptOrder::Seq);
    let mut solver = dlx::Solver::new(&mut problem);
    let mut chooser = mrv_chooser(prefer_any(), no_tiebreak());
    let mut solutions = 0;
    while solver.next_solution(&mut chooser) {
        solutions += 1;
    }
    (solutions, solver.get_profile().iter().sum::<usize>() as u64, solver.get_updates() as u64)
}

fn compare_doors(door: Option<Door>, count: usize, seed: u64) {
    let mut random = Random::new(seed);
    let mut tally = Tally::default();
    for words in doors::at_the_limits() {
        assert!(try_at_door(&words, &mut random, door, &mut tally), "a problem at a limit has a short search");
    }
    let mut made = 0;
    while made < count {
        let words = problems::any(&mut random);
        made += usize::from(try_at_door(&words, &mut random, door, &mut tally));
    }
    println!("host door, its limits and random: {tally}");
    tally = Tally::default();
    for words in tiny_ones() {
        let mut caller = Caller::new(&words, door).expect("a tiny problem has a short search");
        caller.each_call();
        tally.add(&caller.tally);
    }
    println!("host door, every tiny one: {tally}");
}

/// Calls at random. False, and nothing counted, if a search is too long.
fn try_at_door(words: &[i32], random: &mut Random, door: Option<Door>, tally: &mut Tally) -> bool {
    let Some(mut caller) = Caller::new(words, door) else { return false };
    let is_made = caller.at_random(random);
    if is_made {
        tally.add(&caller.tally);
    }
    is_made
}

/// Texts through the model, dlx's reader and, if it is named, the program that prints their solutions.
fn compare_texts(program: Option<&str>, count: usize, seed: u64) {
    let mut random = Random::new(seed);
    let mut kinds = std::collections::BTreeMap::<&str, u64>::new();
    let (mut lines, mut longest) = (0, 0);
    let drawn = (0..count).map(|_| None);
    for text in texts::at_the_limits().into_iter().map(Some).chain(drawn) {
        let text = text.unwrap_or_else(|| texts::any(&mut random));
        let (kind, expected) = texts::exercise(&text);
        *kinds.entry(kind).or_default() += 1;
        lines += expected.lines().count();
        longest = longest.max(expected.len());
        if let Some(program) = program {
            let shown = String::from_utf8_lossy(&text[..text.len().min(400)]).into_owned();
            let written = run(program, text);
            assert_eq!(String::from_utf8_lossy(&written), expected, "text {shown:?}");
        }
    }
    println!("texts: {count} random ones and those at the limits; {kinds:?}");
    println!("  {lines} lines to print, at most {longest} bytes of one text");
}

#[cfg(feature = "door")]
fn linked_door() -> Door {
    unsafe extern "C" {
        fn host_door(
            problem: *const u8,
            problem_len: usize,
            number: u64,
            allowance: u64,
            out: *mut u8,
            out_len: usize,
        ) -> u32;
    }
    |problem, number, allowance, out| {
        // SAFETY: both pointers come with the lengths of the slices that they point into, and the function keeps neither.
        unsafe { host_door(problem.as_ptr(), problem.len(), number, allowance, out.as_mut_ptr(), out.len()) }
    }
}

#[cfg(not(feature = "door"))]
fn linked_door() -> Door {
    panic!("built without the feature `door`");
}

/// The number of random problems and the seed that they are drawn from.
fn how_many(words: &[&str]) -> (usize, u64) {
    let count = words.first().map_or(RANDOM_PROBLEMS, |count| count.parse().expect("a number of problems"));
    (count, words.get(1).map_or(1, |seed| seed.parse().expect("a seed")))
}

fn main() {
    let words: Vec<String> = std::env::args().skip(1).collect();
    let words: Vec<&str> = words.iter().map(String::as_str).collect();
    match words[..] {
        ["model", ref rest @ ..] => {
            let (count, seed) = how_many(rest);
            figures();
            compare(None, count, seed);
            compare_doors(None, count, seed);
            compare_texts(None, count, seed);
        }
        ["text", program, ref rest @ ..] => {
            let (count, seed) = how_many(rest);
            streams::exercise(program);
            compare_texts(Some(program), count, seed);
        }
        ["replay", program, ref rest @ ..] => {
            let (count, seed) = how_many(rest);
            bad_inputs(program);
            compare(Some(program), count, seed);
        }
        ["door", ref rest @ ..] => {
            let (count, seed) = how_many(rest);
            compare_doors(Some(linked_door()), count, seed);
        }
        _ => panic!("compare model|replay PROGRAM|text PROGRAM|door [PROBLEMS [SEED]]"),
    }
}
