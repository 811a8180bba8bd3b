//! Times of a whole search, all solutions, with set-up apart. The contestants take turns, so that whatever else the
//! machine does falls on all of them.

#[cfg(feature = "timed")]
mod proved;

use std::hint::black_box;
use std::time::{Duration, Instant};

use judge::problems::{queens, tiles};
use judge::trace::{Options, as_options};

const ROUNDS: usize = 101;

/// One set-up and one search.
struct Turn {
    set_up: Duration,
    search: Duration,
    solutions: u64,
}

struct Problem {
    name: &'static str,
    words: Vec<i32>,
    solutions: u64,
    is_coloured: bool,
}

struct Contestant {
    name: &'static str,
    takes_colours: bool,
    turn: fn(&Problem) -> Turn,
}

/// A contestant in a problem.
struct Entry {
    contestant: Contestant,
    turns: Vec<Turn>,
}

fn timed<P>(set_up: impl FnOnce() -> P, search: impl FnOnce(&mut P) -> u64) -> Turn {
    let start = Instant::now();
    let mut problem = black_box(set_up());
    let set_up = start.elapsed();
    let start = Instant::now();
    let solutions = black_box(search(&mut problem));
    Turn { set_up, search: start.elapsed(), solutions }
}

fn without_colours(options: &Options) -> Vec<Vec<u32>> {
    options.iter().map(|option| option.iter().map(|&(item, _)| item).collect()).collect()
}

/// One build of dlx, by c.rs and by x.rs; with the option numbers of each solution or without.
macro_rules! contestants_of {
    ($module:ident, $dlx:ident) => {
        mod $module {
            use super::{Problem, Turn, as_options, black_box, timed, without_colours};
            use $dlx::choose::{mrv_chooser, no_tiebreak, prefer_any};
            use $dlx::{OptOrder, Solve, Solver};

            fn search<P: Solve, const NUMBERS: bool>(problem: &mut P) -> u64 {
                let mut solver = Solver::new(problem);
                let mut chooser = mrv_chooser(prefer_any(), no_tiebreak());
                let mut solutions = 0;
                while solver.next_solution(&mut chooser) {
                    if NUMBERS {
                        black_box(solver.fmt_solution());
                    }
                    solutions += 1;
                }
                solutions
            }

            pub fn c<const NUMBERS: bool>(problem: &Problem) -> Turn {
                let (np, ns, options) = as_options(&problem.words);
                timed(|| $dlx::c::make_problem(np, ns, &options, OptOrder::Seq), search::<_, NUMBERS>)
            }

            pub fn x<const NUMBERS: bool>(problem: &Problem) -> Turn {
                let (np, ns, options) = as_options(&problem.words);
                let options = without_colours(&options);
                timed(|| $dlx::x::make_problem(np, ns, &options, OptOrder::Seq), search::<_, NUMBERS>)
            }
        }
    };
}

contestants_of!(tested, dlx);
contestants_of!(untested, dlx_untested);

/// Those that count the solutions, or take the option numbers of each as well. The first is what the others are
/// compared with.
fn contestants<const NUMBERS: bool>() -> Vec<Contestant> {
    Vec::from([
        Contestant { name: "c.rs", takes_colours: true, turn: tested::c::<NUMBERS> },
        Contestant { name: "c.rs, unsafe-fast-index", takes_colours: true, turn: untested::c::<NUMBERS> },
        Contestant { name: "x.rs", takes_colours: false, turn: tested::x::<NUMBERS> },
        Contestant { name: "x.rs, unsafe-fast-index", takes_colours: false, turn: untested::x::<NUMBERS> },
        #[cfg(feature = "timed")]
        proved::contestant(NUMBERS),
    ])
}

fn entries<const NUMBERS: bool>(problem: &Problem) -> Vec<Entry> {
    contestants::<NUMBERS>()
        .into_iter()
        .filter(|contestant| contestant.takes_colours || !problem.is_coloured)
        .map(|contestant| Entry { contestant, turns: Vec::new() })
        .collect()
}

/// The least of the times, which a loaded machine disturbs least, and the median.
fn summary(times: impl Iterator<Item = Duration>) -> (Duration, Duration) {
    let mut times: Vec<Duration> = times.collect();
    times.sort();
    (times[0], times[times.len() / 2])
}

fn ratio(own: Duration, base: Duration) -> f64 {
    own.as_secs_f64() / base.as_secs_f64()
}

fn show(entries: &[Entry]) {
    let base = &entries[0].turns;
    let (base_least, _) = summary(base.iter().map(|turn| turn.search));
    for Entry { contestant: Contestant { name, .. }, turns } in entries {
        let (least, median) = summary(turns.iter().map(|turn| turn.search));
        let (_, set_up) = summary(turns.iter().map(|turn| turn.set_up));
        let mut ratios: Vec<f64> = turns.iter().zip(base).map(|(own, base)| ratio(own.search, base.search)).collect();
        ratios.sort_by(f64::total_cmp);
        let [low, middle, high] = [1, 2, 3].map(|quarter| ratios[quarter * ratios.len() / 4]);
        let by_least = ratio(least, base_least);
        print!("    {name:24} least {least:>8.2?} ({by_least:.2}), ");
        println!("median {median:>8.2?} ({middle:.2}, {low:.2} to {high:.2}), set-up {set_up:>7.1?}");
    }
}

fn compete(problem: &Problem) {
    #[cfg(feature = "timed")]
    proved::check(problem);
    let mut classes = [entries::<false>(problem), entries::<true>(problem)];
    for round in 0..=ROUNDS {
        for entry in classes.iter_mut().flatten() {
            let turn = (entry.contestant.turn)(problem);
            assert_eq!(turn.solutions, problem.solutions, "{} counts otherwise", entry.contestant.name);
            // The first round only warms up.
            if round > 0 {
                entry.turns.push(turn);
            }
        }
    }
    println!("{}, {} solutions", problem.name, problem.solutions);
    for (work, entries) in ["counted", "with option numbers"].into_iter().zip(&classes) {
        println!("  {work}");
        show(entries);
    }
}

fn main() {
    println!(
        "{ROUNDS} rounds; in brackets the ratio to c.rs: of the least times, and in a round (median, middle half)"
    );
    for problem in [
        Problem { name: "ten queens", words: queens(10), solutions: 724, is_coloured: false },
        Problem { name: "eleven queens", words: queens(11), solutions: 2_680, is_coloured: false },
        Problem { name: "twelve queens", words: queens(12), solutions: 14_200, is_coloured: false },
        Problem { name: "tiles, three by three", words: tiles(3, 3), solutions: 32_768, is_coloured: true },
    ] {
        compete(&problem);
    }
}
