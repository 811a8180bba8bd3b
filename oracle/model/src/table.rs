//! The table at a point of the search, told without following a link: who is in which ring, and the
//! neighbours that each node had when it left.

use crate::problem::{Entry, Kept, Problem};

/// Members in order, the header first.
#[derive(Clone)]
struct Rings {
    rings: Vec<Vec<usize>>,
    /// The pair of words of whoever is in no ring.
    apart: Vec<[usize; 2]>,
}

impl Rings {
    fn leave(&mut self, ring: usize, member: usize) {
        let ring = &mut self.rings[ring];
        let at = ring.iter().position(|&other| other == member).expect("only a member leaves");
        self.apart[member] = [ring[at - 1], ring[(at + 1) % ring.len()]];
        ring.remove(at);
    }

    fn pairs(&self) -> Vec<[usize; 2]> {
        let mut pairs = self.apart.clone();
        for ring in &self.rings {
            for (at, &member) in ring.iter().enumerate() {
                pairs[member] = [ring[(at + ring.len() - 1) % ring.len()], ring[(at + 1) % ring.len()]];
            }
        }
        pairs
    }
}

const PRIMARY: usize = 0;
const SECONDARY: usize = 1;

#[derive(Clone)]
pub struct Table<'p> {
    problem: &'p Problem,
    /// The node of each kept option's first entry.
    first: Vec<usize>,
    items: Rings,
    /// Ring i holds the nodes of item i, counted from zero.
    nodes: Rings,
    tops: Vec<i32>,
    colours: Vec<i32>,
    /// The entries chosen so far, in the order in which they took hold.
    held: Vec<Entry>,
    /// What everything done to the fresh table has cost.
    pub updates: u64,
}

impl<'p> Table<'p> {
    pub fn fresh(problem: &'p Problem) -> Self {
        let (np, n) = (problem.np, problem.n);
        let items = vec![(0..=np).collect(), std::iter::once(n + 1).chain(np + 1..=n).collect()];
        let mut table = Table {
            problem,
            first: Vec::new(),
            items: Rings { rings: items, apart: vec![[0; 2]; n + 2] },
            nodes: Rings { rings: (1..=n).map(|header| vec![header]).collect(), apart: vec![[0; 2]; n + 2] },
            tops: vec![0; n + 2],
            colours: vec![0; n + 2],
            held: Vec::new(),
            updates: 0,
        };
        problem.kept.iter().for_each(|option| table.enter(option));
        table
    }

    /// The option's nodes and the spacer after them; the spacer before it learns its last node.
    fn enter(&mut self, option: &Kept) {
        let first = self.tops.len();
        let spacer = first + option.entries.len();
        self.first.push(first);
        for (node, entry) in (first..).zip(&option.entries) {
            self.nodes.rings[entry.item].push(node);
            self.tops.push(entry.item as i32 + 1);
            self.colours.push(entry.colour);
        }
        self.nodes.apart[first - 1][1] = spacer - 1;
        self.nodes.apart.resize(spacer, [0; 2]);
        self.nodes.apart.push([first, 0]);
        self.tops.push(-(option.number as i32 + 1));
        self.colours.push(0);
    }

    pub fn node(&self, option: usize, item: usize) -> usize {
        let entries = &self.problem.kept[option].entries;
        self.first[option] + entries.iter().position(|entry| entry.item == item).expect("an item of the option")
    }

    pub fn cover(&mut self, item: usize) {
        self.take_hold(Entry { item, colour: 0 });
    }

    /// The option's entries after that of the item by which it was chosen, and round to it.
    pub fn commit(&mut self, option: usize, item: usize) {
        for entry in self.others(option, item) {
            if self.held.iter().all(|held| held.item != entry.item) {
                self.take_hold(entry);
            }
        }
    }

    fn others(&self, option: usize, item: usize) -> Vec<Entry> {
        let entries = &self.problem.kept[option].entries;
        let at = entries.iter().position(|entry| entry.item == item).expect("an item of the option");
        entries[at + 1..].iter().chain(&entries[..at]).copied().collect()
    }

    /// Options of the item that have its colour are marked there; the others leave all their other
    /// items. A covered item leaves its ring, a coloured one stays.
    fn take_hold(&mut self, entry: Entry) {
        for option in self.linked(entry.item) {
            if entry.colour != 0 && self.problem.kept[option].colour_of(entry.item) == Some(entry.colour) {
                let node = self.node(option, entry.item);
                self.colours[node] = -1;
            } else {
                self.hide(option, entry.item);
            }
        }
        if entry.colour == 0 {
            let ring = if entry.item < self.problem.np { PRIMARY } else { SECONDARY };
            self.items.leave(ring, entry.item + 1);
            self.updates += 1;
        }
        self.held.push(entry);
    }

    /// The options of an item not yet held that agree with all that is held.
    fn linked(&self, item: usize) -> Vec<usize> {
        let agrees = |option: &Kept| self.held.iter().all(|held| option.agrees_at(held.item, held.colour));
        let kept = self.problem.kept.iter().enumerate();
        kept.filter(|(_, option)| option.colour_of(item).is_some() && agrees(option)).map(|(index, _)| index).collect()
    }

    /// A node whose item is held is marked, and stays where it is.
    fn hide(&mut self, option: usize, item: usize) {
        for entry in self.others(option, item) {
            if self.held.iter().all(|held| held.item != entry.item) {
                self.nodes.leave(entry.item, self.node(option, entry.item));
                self.updates += 1;
            }
        }
    }

    pub fn words(&self) -> Vec<i32> {
        let mut words: Vec<i32> = self.items.pairs().into_iter().flatten().map(|word| word as i32).collect();
        for (node, [up, down]) in self.nodes.pairs().into_iter().enumerate() {
            let is_header = (1..=self.problem.n).contains(&node);
            let top = if is_header { self.nodes.rings[node - 1].len() as i32 - 1 } else { self.tops[node] };
            words.extend([top, up as i32, down as i32, self.colours[node]]);
        }
        words
    }
}
