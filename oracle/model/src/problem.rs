//! The problem words: the refusals that they decide, and the options they list.

pub struct Limits {
    pub items: i64,
    pub options: i64,
    pub entries: usize,
}

pub const CALLS: Limits = Limits { items: 1024, options: 4096, entries: 16384 };
pub const DOOR: Limits = Limits { items: 64, options: 64, entries: 256 };

/// The words cut into options, before any entry is looked at.
pub struct Cut {
    pub np: usize,
    pub n: usize,
    options: Vec<Vec<(i32, i32)>>,
}

#[derive(Clone, Copy)]
pub struct Entry {
    pub item: usize,
    pub colour: i32,
}

/// An option with a primary item, under its number in the input.
pub struct Kept {
    pub number: usize,
    pub entries: Vec<Entry>,
}

pub struct Problem {
    pub np: usize,
    pub n: usize,
    pub kept: Vec<Kept>,
}

/// All refusals up to 8, in document 01's order; `room` says whether 9 has nothing against the lists lent.
pub fn accept(words: &[i32], limits: &Limits, room: impl Fn(&Cut) -> bool) -> Result<Problem, u32> {
    let cut = cut(words, limits)?;
    if !room(&cut) {
        return Err(9);
    }
    cut.first_fault()?;
    Ok(cut.problem())
}

fn cut(words: &[i32], limits: &Limits) -> Result<Cut, u32> {
    let &[np, ns, count, ref rest @ ..] = words else { return Err(4) };
    if np < 1 {
        return Err(1);
    }
    if count < 1 {
        return Err(2);
    }
    if ns < 0 {
        return Err(4);
    }
    let n = i64::from(np) + i64::from(ns);
    if n > limits.items || i64::from(count) > limits.options {
        return Err(3);
    }
    let options = cut_options(rest, count)?;
    if options.iter().map(Vec::len).sum::<usize>() > limits.entries {
        return Err(3);
    }
    Ok(Cut { np: np as usize, n: n as usize, options })
}

fn cut_options(mut words: &[i32], count: i32) -> Result<Vec<Vec<(i32, i32)>>, u32> {
    let mut options = Vec::new();
    for _ in 0..count {
        let (&entries, after) = words.split_first().ok_or(4u32)?;
        let entries = usize::try_from(entries).map_err(|_| 4u32)?;
        if after.len() / 2 < entries {
            return Err(4);
        }
        let (pairs, after) = after.split_at(2 * entries);
        options.push(pairs.chunks_exact(2).map(|pair| (pair[0], pair[1])).collect());
        words = after;
    }
    if words.is_empty() { Ok(options) } else { Err(4) }
}

impl Cut {
    fn is_primary(&self, item: i32) -> bool {
        usize::try_from(item).is_ok_and(|item| item < self.np)
    }

    /// One item word of a primary item keeps its option, even where another entry is faulty.
    fn keeps(&self, option: &[(i32, i32)]) -> bool {
        option.iter().any(|&(item, _)| self.is_primary(item))
    }

    pub fn table_words(&self) -> usize {
        let kept = self.options.iter().filter(|option| self.keeps(option));
        let nodes = self.n + 2 + kept.map(|option| option.len() + 1).sum::<usize>();
        2 * (self.n + 2) + 4 * nodes
    }

    fn first_fault(&self) -> Result<(), u32> {
        for option in &self.options {
            for (at, &(item, colour)) in option.iter().enumerate() {
                if !usize::try_from(item).is_ok_and(|item| item < self.n) {
                    return Err(5);
                }
                if option[..at].iter().any(|&(before, _)| before == item) {
                    return Err(6);
                }
                if self.is_primary(item) && colour != 0 {
                    return Err(7);
                }
                if colour < 0 {
                    return Err(8);
                }
            }
        }
        Ok(())
    }

    fn problem(self) -> Problem {
        let entry = |&(item, colour): &(i32, i32)| Entry { item: item as usize, colour };
        let kept = (0..)
            .zip(&self.options)
            .filter(|(_, option)| self.keeps(option))
            .map(|(number, option)| Kept { number, entries: option.iter().map(entry).collect() })
            .collect();
        Problem { np: self.np, n: self.n, kept }
    }
}

impl Kept {
    pub fn colour_of(&self, item: usize) -> Option<i32> {
        self.entries.iter().find(|entry| entry.item == item).map(|entry| entry.colour)
    }

    /// Whether this option leaves the item to others, or shares its one colour.
    pub fn agrees_at(&self, item: usize, colour: i32) -> bool {
        self.colour_of(item).is_none_or(|own| own == colour && colour != 0)
    }

    /// A primary item has colour 0 in both, so sharing one is disagreement.
    pub fn agrees(&self, other: &Kept) -> bool {
        other.entries.iter().all(|entry| self.agrees_at(entry.item, entry.colour))
    }
}
