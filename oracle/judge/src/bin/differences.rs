//! What dlx does, run, with the smallest inputs on which the project differs from it.

use std::any::Any;
use std::panic::{AssertUnwindSafe, catch_unwind};
use std::sync::{Mutex, mpsc};
use std::time::Duration;

use dlx::c::{self, Problem};
use dlx::choose::{Choose, mrv_chooser, no_tiebreak, prefer_any};
use dlx::{Dance, OptOrder, Solve, Solver, Spec};
use judge::problems;
use judge::trace::{Options, as_options, words_told};
use model::calls::{BLANK, Lent, next, set_up};
use model::text::Reading;

static PANIC: Mutex<String> = Mutex::new(String::new());

const PATIENCE: Duration = Duration::from_secs(1);

/// The panic's own text where the run panics; a run that does not end is left to itself.
fn caught<T: Send + 'static>(run: impl FnOnce() -> T + Send + 'static) -> Result<T, String> {
    let (sender, receiver) = mpsc::channel();
    std::thread::spawn(move || {
        let result = catch_unwind(AssertUnwindSafe(run));
        sender.send(result.map_err(|_| "panic: ".to_string() + &PANIC.lock().expect("no panic while it is held")))
    });
    receiver.recv_timeout(PATIENCE).unwrap_or_else(|_| Err(format!("no end within {PATIENCE:?}")))
}

fn make(np: u32, ns: u32, options: &Options) -> Problem {
    c::make_problem(np, ns, options, OptOrder::Seq)
}

fn chooser<D: Dance>() -> impl Choose<D> {
    mrv_chooser(prefer_any(), no_tiebreak())
}

/// The first few answers of a solver: solutions, then the end.
fn solutions(problem: &mut Problem) -> String {
    let mut solver = Solver::new(problem);
    let mut chooser = chooser();
    let mut told = String::new();
    for _ in 0..4 {
        if !solver.next_solution(&mut chooser) {
            return format!("{told}exhausted, updates {}, profile {:?}", solver.get_updates(), solver.get_profile());
        }
        told += &format!("solution {:?}; ", solver.fmt_solution());
    }
    told + "and so on"
}

fn tell(name: &str, words: &[i32]) {
    if words.len() < 100 {
        println!("{name}: words {words:?}");
    } else {
        println!("{name}: {} words, which begin {:?}", words.len(), &words[..6]);
    }
    let (np, ns, options) = as_options(words);
    match caught(move || make(np, ns, &options)) {
        Err(text) => println!("  dlx at set-up: {text}"),
        Ok(mut problem) => {
            let n = (np + ns) as usize;
            let fresh = words_told(&problem, n);
            if fresh.len() < 100 {
                println!("  dlx's table: {fresh:?}");
            }
            let told = caught(move || {
                let told = solutions(&mut problem);
                let table = if words_told(&problem, n) == fresh { "as before" } else { "not restored" };
                format!("{told}; table {table}")
            });
            println!("  dlx: {}", told.unwrap_or_else(|text| format!("at the search: {text}")));
        }
    }
    println!("  here: {}", refusal(words));
}

fn refusal(words: &[i32]) -> u32 {
    let mut lent = ample();
    let mut outcome = set_up(words, &mut lent);
    if outcome.answer == 0 {
        outcome = next(words, &mut lent, BLANK, 0);
    }
    outcome.answer
}

fn ample() -> Lent {
    let (table, list) = (vec![0; 400], vec![0; 8]);
    Lent { table: table.clone(), spare: table, path: list.clone(), profile: vec![0; 8], found: list }
}

fn one() -> Problem {
    make(1, 0, &vec![vec![(0, 0)]])
}

fn counts() {
    println!("counts: words [1, 0, 1, 1, 0, 0], updates begun at the largest isize");
    let mut problem = one();
    *problem.updates() = isize::MAX;
    let told = caught(move || {
        let mut solver = Solver::new(&mut problem);
        let mut call =
            || format!("solution {}, updates {}", solver.next_solution(&mut chooser()), solver.get_updates());
        format!("{}; then {}", call(), call())
    });
    println!("  dlx: {}", told.unwrap_or_else(|text| text));
    let words = [1, 0, 1, 1, 0, 0];
    let mut lent = ample();
    let mut state = set_up(&words, &mut lent).state;
    state.updates = isize::MAX as u64;
    for _ in 0..2 {
        let outcome = next(&words, &mut lent, state, 1);
        state = outcome.state;
        println!("  here: {}, updates {}", outcome.answer, state.updates);
    }
    state.updates += 1;
    println!("  here, with one more lent: {}", next(&words, &mut lent, state, 1).answer);
}

fn second_solver() {
    println!("a second solver at a solution: words [1, 0, 1, 1, 0, 0]");
    let mut problem = one();
    let found = Solver::new(&mut problem).next_solution(&mut chooser());
    let left = words_told(&problem, 1);
    println!("  dlx, first solver: {found}; second solver: {}", solutions(&mut problem));
    println!("  dlx's table as the first solver left it: {}", words_told(&problem, 1) == left);
    let words = [1, 0, 1, 1, 0, 0];
    let mut lent = ample();
    set_up(&words, &mut lent);
    next(&words, &mut lent, BLANK, 1);
    println!(
        "  here, Next with the table left at the solution and a blank state: {}",
        next(&words, &mut lent, BLANK, 1).answer
    );
}

/// Calls of dlx's `try_item` and `try_again` by hand, as `Solver` makes them, to see the path word that they leave.
fn stale_path() {
    println!("path past depth: words [1, 0, 1, 1, 0, 0]");
    let mut problem = one();
    let mut node = *problem.dlink(1);
    problem.prepare_to_branch(1, 0, node);
    let tried = problem.try_item(1, 0, node);
    println!("  dlx, the solution: tried {tried}, path word {node}");
    let again = problem.try_again(1, 0, &mut node);
    println!("  dlx, after it: tried {again}, path word {node}");
    let words = [1, 0, 1, 1, 0, 0];
    let mut lent = ample();
    let mut state = set_up(&words, &mut lent).state;
    for _ in 0..2 {
        state = next(&words, &mut lent, state, 1).state;
        println!("  here: depth {}, path word {}", state.depth, lent.path[0]);
    }
    lent.path[0] = 1;
    println!("  here, with path word 1 lent: {}", next(&words, &mut lent, state, 1).answer);
}

fn short_profile() {
    println!("profile: words [2, 0, 1, 1, 0, 0]");
    println!("  dlx: {}", solutions(&mut make(2, 0, &vec![vec![(0, 0)]])));
    let words = [2, 0, 1, 1, 0, 0];
    let mut lent = ample();
    let state = set_up(&words, &mut lent).state;
    let answer = next(&words, &mut lent, state, 1).answer;
    println!("  here: {answer}, profile {:?}", &lent.profile[..2]);
}

/// 4,097 options, all but the first empty.
fn many_options() -> Vec<i32> {
    let mut options = vec![Vec::new(); 4_097];
    options[0].push((0, 0));
    problems::words(1, 0, &options)
}

/// 16 options with each of 1,024 items, and one with item 0: 16,385 entries.
fn many_entries() -> Vec<i32> {
    let full: Vec<(i32, i32)> = (0..1_024).map(|item| (item, 0)).collect();
    let mut options = vec![full; 16];
    options.push(vec![(0, 0)]);
    problems::words(1_024, 0, &options)
}

fn text_of(payload: &dyn Any) -> &str {
    let formatted = || payload.downcast_ref::<String>().map(String::as_str);
    payload.downcast_ref::<&str>().copied().or_else(formatted).unwrap_or("")
}

fn minus_one() {
    tell("bad index, -1", &[1, 0, 1, 2, 0, 0, -1, 0]);
}

fn tell_text(name: &str, text: &str) {
    println!("{name}: text {:?}", &text[..text.len().min(40)]);
    let read = Spec::new(text, true).and_then(|spec| Problem::from_spec(&spec));
    match read {
        Ok(mut problem) => println!("  dlx: {}", solutions(&mut problem)),
        Err(error) => println!("  dlx: {error}"),
    }
    match model::text::read(text.as_bytes(), true) {
        Reading::Words(words) => println!("  here: words {words:?}"),
        Reading::Faulty(line, _) => println!("  here: 13, line {line}"),
        Reading::Missing => println!("  here: 13, line 0"),
        Reading::Long => println!("  here: 3"),
    }
}

fn main() {
    std::panic::set_hook(Box::new(|info| {
        let place =
            info.location().map_or(String::new(), |place| place.file().rsplit('/').next().unwrap_or("").to_string());
        let text = text_of(info.payload());
        *PANIC.lock().expect("one panic at a time") = format!("{text} ({place})");
    }));
    if cfg!(debug_assertions) {
        println!("a debug build, where it does something else");
        minus_one();
        counts();
        return;
    }
    tell("no primary item", &[0, 0, 0]);
    tell("no options", &[1, 0, 0]);
    tell("more than 1,024 items", &[1, 1024, 1, 1, 0, 0]);
    tell("more than 4,096 options", &many_options());
    tell("more than 16,384 entries", &many_entries());
    tell("bad index, no such node", &[1, 0, 1, 2, 0, 0, 9, 0]);
    tell("bad index, the first spacer", &[1, 0, 1, 2, 0, 0, 1, 0]);
    tell("bad index, the option's own node", &[1, 0, 1, 2, 0, 0, 2, 0]);
    minus_one();
    tell("skipped option with a bad item", &[1, 0, 1, 1, 1, 0]);
    tell("skipped option with a bad item beside a kept one", &[1, 0, 2, 1, 0, 0, 1, 9, 0]);
    tell("repeat of a primary item", &[1, 0, 1, 2, 0, 0, 0, 0]);
    tell("repeat of a primary item after another", &[2, 0, 1, 3, 0, 0, 1, 0, 1, 0]);
    tell("repeat of a secondary item", &[1, 1, 1, 3, 0, 0, 1, 5, 1, 6]);
    tell("repeat of a secondary item, uncoloured", &[1, 1, 1, 3, 0, 0, 1, 0, 1, 0]);
    tell("coloured primary item", &[1, 0, 1, 1, 0, 7]);
    tell("coloured primary item not chosen by it", &[2, 0, 1, 2, 0, 0, 1, 7]);
    tell("coloured primary items that agree", &[2, 0, 2, 2, 0, 0, 1, 7, 1, 1, 7]);
    tell("negative colour", &[1, 1, 1, 2, 0, 0, 1, -1]);
    tell("negative colours that differ", &[2, 1, 2, 2, 0, 0, 2, -1, 2, 1, 0, 2, -2]);
    tell("negative and positive colour", &[2, 1, 2, 2, 0, 0, 2, 1, 2, 1, 0, 2, -2]);
    counts();
    second_solver();
    stale_path();
    short_profile();
    tell_text("an item again in another colour", "a | s\na s:a s:b");
    tell_text("an item again, once uncoloured", "a | s\na s s:a");
    tell_text("a vertical tab", "a\na\u{b}");
    tell_text("a letter beyond ASCII", "\u{e9}\n\u{e9}");
    tell_text("a refused byte in a remark", "a\na\n| \u{7f}");
    tell_text("a faulty items line, and no option", "a a");
    tell_text("a long text", &("a\na\n".to_string() + &" ".repeat(65_533)));
}
