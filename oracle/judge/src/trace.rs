//! A whole search by dlx, with every word of its problem taken down at each visit, each solution and the end;
//! and once more after the end, which must be the same.

use std::cell::RefCell;
use std::rc::Rc;

use dlx::c::{self, DanceC, ONodes, Problem};
use dlx::choose::{Choose, mrv_chooser, no_tiebreak, prefer_any};
use dlx::x::INodes;
use dlx::{Dance, Items, OptOrder, Solve, Solver};

#[derive(Clone, Copy, PartialEq, Eq, Debug)]
pub enum At {
    /// A visit is due.
    Visit,
    Solution,
    End,
}

/// What a call that stops here must leave behind.
#[derive(Clone, PartialEq, Eq, Debug)]
pub struct Stop {
    pub at: At,
    pub table: Vec<i32>,
    /// The nodes tried at each level, as many as the depth.
    pub path: Vec<i32>,
    /// Updates since the search began.
    pub updates: u64,
    /// Option numbers, at a solution.
    pub options: Vec<i32>,
}

pub struct Trace {
    pub np: usize,
    pub fresh: Vec<i32>,
    pub stops: Vec<Stop>,
    /// dlx's own counts at the end.
    pub profile: Vec<usize>,
}

pub type Options = Vec<Vec<(u32, i32)>>;

/// Words that no refusal from 1 to 8 concerns, as dlx takes them.
pub fn as_options(words: &[i32]) -> (u32, u32, Options) {
    let mut rest = &words[3..];
    let mut options = Vec::new();
    while let Some((&entries, after)) = rest.split_first() {
        let (pairs, after) = after.split_at(2 * entries as usize);
        options.push(pairs.chunks_exact(2).map(|pair| (pair[0] as u32, pair[1])).collect());
        rest = after;
    }
    (words[0] as u32, words[1] as u32, options)
}

/// All numbers of the `Debug` text: the pairs, two counts of items, the nodes, the updates.
pub fn words_told(problem: &Problem, n: usize) -> Vec<i32> {
    let text = format!("{problem:?}");
    let is_number = |part: &&str| part.bytes().any(|byte| byte.is_ascii_digit());
    let parts = text.split(|c: char| !c.is_ascii_digit() && c != '-').filter(is_number);
    let mut words: Vec<i32> = parts.map(|part| part.parse().expect("a number of 32 bits")).collect();
    words.pop();
    words.drain(2 * (n + 2)..2 * (n + 2) + 2);
    words
}

/// The same words through the accessors, which is quicker.
fn words_read(problem: &mut Problem, nodes: usize) -> Vec<i32> {
    let n = problem.items().count();
    let mut words = Vec::with_capacity(2 * (n as usize + 2) + 4 * nodes);
    for item in 0..n + 2 {
        words.extend([*problem.llink(item) as i32, *problem.rlink(item) as i32]);
    }
    for node in 0..nodes as u32 {
        words.extend([
            *problem.top(node),
            *problem.ulink(node) as i32,
            *problem.dlink(node) as i32,
            *problem.color(node),
        ]);
    }
    words
}

/// dlx's problem, which does all the work, with a look at what `Solver` asks of it. While a solver
/// lives it alone holds the problem; the words are taken down whenever it asks for the updates.
struct Watched {
    problem: Problem,
    nodes: usize,
    path: Vec<i32>,
    now: Rc<RefCell<Now>>,
}

#[derive(Default)]
struct Now {
    table: Vec<i32>,
    path: Vec<i32>,
    visits: Vec<Stop>,
}

impl Watched {
    fn take_down(&mut self) {
        let table = words_read(&mut self.problem, self.nodes);
        let mut now = self.now.borrow_mut();
        now.table = table;
        now.path.clone_from(&self.path);
    }

    fn step(&mut self, level: u32, node: u32, tried: bool) -> bool {
        self.path.truncate(level as usize);
        if tried {
            self.path.push(node as i32);
        }
        tried
    }
}

impl Dance for Watched {
    type I = INodes;
    type O = ONodes;

    fn items(&mut self) -> &mut INodes {
        self.problem.items()
    }
    fn opts(&mut self) -> &mut ONodes {
        self.problem.opts()
    }
    fn updates(&mut self) -> &mut isize {
        self.take_down();
        self.problem.updates()
    }
    fn cover(&mut self, i: u32) {
        self.problem.cover(i)
    }
    fn commit(&mut self, p: u32, j: u32) {
        self.problem.commit(p, j)
    }
    fn uncover(&mut self, i: u32) {
        self.problem.uncover(i)
    }
    fn uncommit(&mut self, p: u32, j: u32) {
        self.problem.uncommit(p, j)
    }
    fn hide(&mut self, p: u32) {
        self.problem.hide(p)
    }
    fn unhide(&mut self, p: u32) {
        self.problem.unhide(p)
    }
    fn branch_degree(&mut self, i: u32) -> i32 {
        self.problem.branch_degree(i)
    }
}

impl Solve for Watched {
    fn enter_level(&mut self, i: u32, l: u32, xl: u32) {
        self.problem.enter_level(i, l, xl)
    }
    fn prepare_to_branch(&mut self, i: u32, l: u32, xl: u32) {
        self.problem.prepare_to_branch(i, l, xl)
    }
    fn try_item(&mut self, i: u32, l: u32, xl: u32) -> bool {
        let tried = self.problem.try_item(i, l, xl);
        self.step(l, xl, tried)
    }
    fn try_again(&mut self, i: u32, l: u32, xl: &mut u32) -> bool {
        let tried = self.problem.try_again(i, l, xl);
        self.step(l, *xl, tried)
    }
    fn restore_item(&mut self, i: u32, l: u32, xl: u32) {
        self.problem.restore_item(i, l, xl)
    }
}

/// dlx's own choice, with the problem taken down before it.
struct Watcher<C>(C);

impl<C: Choose<Watched>> Choose<Watched> for Watcher<C> {
    fn choose(&mut self, watched: &mut Watched) -> u32 {
        let updates = *watched.updates() as u64;
        let mut now = watched.now.borrow_mut();
        let stop =
            Stop { at: At::Visit, table: now.table.clone(), path: now.path.clone(), updates, options: Vec::new() };
        now.visits.push(stop);
        drop(now);
        self.0.choose(watched)
    }
}

impl Trace {
    /// The whole search of an accepted problem; none if it has more stops than `most`.
    pub fn of(words: &[i32], most: usize) -> Option<Trace> {
        let (np, ns, options) = as_options(words);
        let problem = c::make_problem(np, ns, &options, OptOrder::Seq);
        let n = (np + ns) as usize;
        let fresh = words_told(&problem, n);
        let now = Rc::new(RefCell::new(Now::default()));
        let nodes = (fresh.len() - 2 * (n + 2)) / 4;
        let mut watched = Watched { problem, nodes, path: Vec::new(), now: Rc::clone(&now) };
        let mut solver = Solver::new(&mut watched);
        let stops = one_round(&mut solver, &now, most)?;
        let profile = solver.get_profile().to_vec();
        let visits_at = |level| stops.iter().filter(|stop| stop.at == At::Visit && stop.path.len() == level).count();
        let levels = profile.len();
        assert_eq!(profile, (0..levels).map(visits_at).collect::<Vec<_>>(), "dlx's profile and its visits");
        let again = one_round(&mut solver, &now, most);
        assert!(again.is_some_and(|again| again == stops), "begun again, dlx makes another search");
        Some(Trace { np: np as usize, fresh, stops, profile })
    }

    /// Visits and solutions of the whole search.
    pub fn size(&self) -> (usize, usize) {
        let count = |at| self.stops.iter().filter(|stop| stop.at == at).count();
        (count(At::Visit), count(At::Solution))
    }
}

/// All stops from the beginning of the search to its end.
fn one_round(solver: &mut Solver<Watched>, now: &RefCell<Now>, most: usize) -> Option<Vec<Stop>> {
    let mut watcher = Watcher(mrv_chooser(prefer_any(), no_tiebreak()));
    let mut stops = Vec::new();
    loop {
        let is_solution = solver.next_solution(&mut watcher);
        let updates = solver.get_updates() as u64;
        let options = if is_solution { solver.fmt_solution().to_vec() } else { Vec::new() };
        let mut now = now.borrow_mut();
        stops.append(&mut now.visits);
        let at = if is_solution { At::Solution } else { At::End };
        stops.push(Stop { at, table: now.table.clone(), path: now.path.clone(), updates, options });
        if stops.len() > most {
            return None;
        }
        if !is_solution {
            return Some(stops);
        }
    }
}
