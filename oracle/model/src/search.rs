//! The search, by plain agreement of options.

use crate::problem::Problem;
use crate::table::Table;

/// What stands after some choices.
#[derive(Clone)]
struct Place<'p> {
    /// Kept options that agree with all chosen.
    agreeing: Vec<usize>,
    uncovered: Vec<usize>,
    table: Table<'p>,
}

/// A choice made: where it was made, and which of its item's options is tried.
struct Level<'p> {
    before: Place<'p>,
    item: usize,
    covered: Table<'p>,
    options: Vec<usize>,
    tried: usize,
}

pub struct Search<'p> {
    problem: &'p Problem,
    levels: Vec<Level<'p>>,
    here: Place<'p>,
    /// Updates made since this value was.
    pub updates: u64,
}

#[derive(Clone, Copy, PartialEq, Eq, Debug)]
pub enum End {
    Solution,
    Exhausted,
    Paused,
}

pub const CAP: u64 = (1 << 63) - 1;

pub fn capped(count: u64, more: u64) -> u64 {
    count.saturating_add(more).min(CAP)
}

impl Place<'_> {
    fn options_of(&self, problem: &Problem, item: usize) -> Vec<usize> {
        let has = |&option: &usize| problem.kept[option].colour_of(item).is_some();
        self.agreeing.iter().copied().filter(has).collect()
    }

    /// The item of least count, the lowest number among equals.
    fn choice(&self, problem: &Problem) -> Option<usize> {
        self.uncovered.iter().copied().min_by_key(|&item| (self.options_of(problem, item).len(), item))
    }
}

impl<'p> Search<'p> {
    pub fn start(problem: &'p Problem) -> Self {
        let here = Place {
            agreeing: (0..problem.kept.len()).collect(),
            uncovered: (0..problem.np).collect(),
            table: Table::fresh(problem),
        };
        Search { problem, levels: Vec::new(), here, updates: 0 }
    }

    /// The point with these nodes on its path, if the search has it.
    pub fn at(problem: &'p Problem, path: &[i32]) -> Option<Self> {
        let mut search = Search::start(problem);
        for &node in path {
            let item = search.here.choice(problem)?;
            let options = search.here.options_of(problem, item);
            let is_tried = |&option: &usize| i32::try_from(search.here.table.node(option, item)) == Ok(node);
            let tried = options.iter().position(is_tried)?;
            search.enter(item, options);
            search.levels.last_mut()?.tried = tried;
            search.try_option();
        }
        search.updates = 0;
        Some(search)
    }

    pub fn table_words(&self) -> Vec<i32> {
        self.here.table.words()
    }

    pub fn path(&self) -> Vec<i32> {
        self.levels.iter().map(|level| level.covered.node(level.options[level.tried], level.item) as i32).collect()
    }

    pub fn option_numbers(&self) -> Vec<i32> {
        let number = |level: &Level| self.problem.kept[level.options[level.tried]].number as i32;
        self.levels.iter().map(number).collect()
    }

    pub fn is_solution(&self) -> bool {
        self.here.uncovered.is_empty()
    }

    fn enter(&mut self, item: usize, options: Vec<usize>) {
        let mut covered = self.here.table.clone();
        covered.cover(item);
        self.updates += covered.updates - self.here.table.updates;
        self.levels.push(Level { before: self.here.clone(), item, covered, options, tried: 0 });
    }

    fn try_option(&mut self) {
        let level = self.levels.last().expect("a level was entered");
        let option = level.options[level.tried];
        let chosen = &self.problem.kept[option];
        let mut table = level.covered.clone();
        table.commit(option, level.item);
        self.updates += table.updates - level.covered.updates;
        let agrees = |&other: &usize| self.problem.kept[other].agrees(chosen);
        let is_left = |&item: &usize| chosen.colour_of(item).is_none();
        self.here = Place {
            agreeing: level.before.agreeing.iter().copied().filter(agrees).collect(),
            uncovered: level.before.uncovered.iter().copied().filter(is_left).collect(),
            table,
        };
    }

    /// On to the next untried option of the deepest level that has one; false at the end of the search.
    fn retreat(&mut self) -> bool {
        while let Some(level) = self.levels.last_mut() {
            level.tried += 1;
            if level.tried < level.options.len() {
                self.try_option();
                return true;
            }
            self.here = level.before.clone();
            self.levels.pop();
        }
        false
    }

    /// To the next solution, the end, or a visit that the allowance does not cover. The visits made are answered.
    pub fn walk(&mut self, leaves_solution: bool, allowance: u64, profile: &mut [u64]) -> (End, u64) {
        let mut visits = 0;
        if leaves_solution && !self.retreat() {
            return (End::Exhausted, visits);
        }
        loop {
            let Some(item) = self.here.choice(self.problem) else { return (End::Solution, visits) };
            if visits == allowance {
                return (End::Paused, visits);
            }
            visits += 1;
            profile[self.levels.len()] = capped(profile[self.levels.len()], 1);
            let options = self.here.options_of(self.problem, item);
            if !options.is_empty() {
                self.enter(item, options);
                self.try_option();
            } else if !self.retreat() {
                return (End::Exhausted, visits);
            }
        }
    }
}
