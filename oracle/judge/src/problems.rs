//! Problems to run: drawn at random, listed whole up to a size, and named ones.

use crate::Random;

type Pairs = Vec<Vec<(i32, i32)>>;

pub fn words(np: i32, ns: i32, options: &Pairs) -> Vec<i32> {
    let mut words = vec![np, ns, options.len() as i32];
    for option in options {
        words.push(option.len() as i32);
        words.extend(option.iter().flat_map(|&(item, colour)| [item, colour]));
    }
    words
}

/// Rows and columns are primary, then come the diagonals of both kinds, secondary.
pub fn queens(size: i32) -> Vec<i32> {
    let diagonals = 2 * size - 1;
    let mut options = Pairs::new();
    for row in 0..size {
        for column in 0..size {
            let (rising, falling) = (row + column, size - 1 + row - column);
            let first = 2 * size;
            options.push(vec![(row, 0), (size + column, 0), (first + rising, 0), (first + diagonals + falling, 0)]);
        }
    }
    words(2 * size, 2 * diagonals, &options)
}

/// Square tiles in rows and columns. A cell is primary; an edge is secondary and has one of two colours;
/// a tile has an even number of edges of colour 2.
pub fn tiles(rows: i32, columns: i32) -> Vec<i32> {
    let cells = rows * columns;
    let across = (rows + 1) * columns;
    let mut options = Pairs::new();
    for cell in 0..cells {
        let (row, column) = (cell / columns, cell % columns);
        let above = cells + row * columns + column;
        let left = cells + across + row * (columns + 1) + column;
        for tile in (0..16).filter(|tile: &i32| tile.count_ones() & 1 == 0) {
            let edges = (0..).zip([above, above + columns, left, left + 1]);
            let coloured = edges.map(|(bit, edge)| (edge, 1 + (tile >> bit & 1)));
            options.push(std::iter::once((cell, 0)).chain(coloured).collect());
        }
    }
    words(cells, across + rows * (columns + 1), &options)
}

pub enum Shape {
    Small,
    Wide,
    Coloured,
    Deep,
}

/// A problem without a fault, of up to 10 primary items.
pub fn sound(random: &mut Random, shape: &Shape) -> Vec<i32> {
    let (np, ns, count, longest) = match shape {
        Shape::Small => (1 + random.below(4), random.below(3), 1 + random.below(6), 3),
        Shape::Wide => (3 + random.below(8), random.below(6), 4 + random.below(13), 4),
        Shape::Coloured => (1 + random.below(4), 1 + random.below(4), 3 + random.below(8), 5),
        Shape::Deep => (4 + random.below(4), random.below(4), 12 + random.below(10), 4),
    };
    let colours = 1 + random.below(3);
    let mut options: Pairs = (0..count).map(|_| option(random, np, ns, longest, colours)).collect();
    if random.one_in(2) {
        plant(random, np, &mut options);
    } else if !random.one_in(4) {
        mend(random, np, &mut options);
    }
    words(np as i32, ns as i32, &options)
}

/// Puts each primary item that no option has into one, so that fewer searches end at once.
fn mend(random: &mut Random, np: usize, options: &mut Pairs) {
    for item in 0..np as i32 {
        if options.iter().flatten().all(|entry| entry.0 != item) {
            let at = random.below(options.len());
            options[at].push((item, 0));
        }
    }
}

/// Items in any order, most often with a primary one; the empty option and those without one too.
fn option(random: &mut Random, np: usize, ns: usize, longest: usize, colours: usize) -> Vec<(i32, i32)> {
    let mut items: Vec<usize> = (0..np + ns).collect();
    let length = if random.one_in(12) { 0 } else { (1 + random.below(longest)).min(np + ns) };
    (0..length)
        .map(|_| {
            let item = items.swap_remove(random.below(items.len()));
            let colour = match random.below(8) {
                _ if item < np => 0,
                0 | 1 => 0,
                2 => i32::MAX,
                _ => 1 + random.below(colours) as i32,
            };
            (item as i32, colour)
        })
        .collect()
}

/// Puts a partition of the primary items among the options, so that more problems have solutions.
fn plant(random: &mut Random, np: usize, options: &mut Pairs) {
    let parts = 1 + random.below(np);
    let mut planted: Pairs = vec![Vec::new(); parts];
    for item in 0..np {
        planted[random.below(parts)].push((item as i32, 0));
    }
    for part in planted.into_iter().filter(|part| !part.is_empty()) {
        let at = random.below(options.len() + 1);
        options.insert(at, part);
    }
}

/// Any of the shapes, one in five with a fault put in.
pub fn any(random: &mut Random) -> Vec<i32> {
    let shape = match random.below(8) {
        0 | 1 => Shape::Wide,
        2 | 3 => Shape::Coloured,
        4 => Shape::Deep,
        _ => Shape::Small,
    };
    let mut problem = sound(random, &shape);
    if random.one_in(5) {
        spoil(random, &mut problem);
    }
    problem
}

pub fn spoil(random: &mut Random, words: &mut Vec<i32>) {
    match random.below(5) {
        0 => words.truncate(random.below(words.len())),
        1 => words.extend((0..1 + random.below(3)).map(|word| word as i32)),
        2 => {
            let head = random.below(3);
            words[head] = random.pick(&[-1, 0, 1, 64, 1024, 1025, 4096, 4097, i32::MAX, i32::MIN]);
        }
        3 => spoil_entry(random, words),
        _ => {
            let at = random.below(words.len());
            words[at] = random.pick(&[-1, 0, 1, 2, 3, 5, i32::MAX, i32::MIN]);
        }
    }
}

/// Replaces one entry's item or colour; the lengths still fit.
fn spoil_entry(random: &mut Random, words: &mut [i32]) {
    let mut entries = Vec::new();
    let mut at = 3;
    while at < words.len() {
        let count = words[at] as usize;
        entries.extend((0..count).map(|entry| at + 1 + 2 * entry));
        at += 1 + 2 * count;
    }
    if !entries.is_empty() {
        let entry = random.pick(&entries);
        let n = words[0] + words[1];
        if random.one_in(2) {
            words[entry] = random.pick(&[-1, 0, n - 1, n, n + 1, i32::MAX, i32::MIN]);
        } else {
            words[entry + 1] = random.pick(&[-1, 1, -2, i32::MAX, i32::MIN]);
        }
    }
}

/// Every list of up to `longest` words from -1 to 2.
pub fn every_list(longest: u32) -> impl Iterator<Item = Vec<i32>> {
    (0..=longest).flat_map(|length| {
        (0..4u32.pow(length)).map(move |code| (0..length).map(|at| (code >> (2 * at) & 3) as i32 - 1).collect())
    })
}

/// Every problem of np and ns items with up to `most` options, each a set of items in rising order, the
/// secondary ones with colour 0, 1 or 2.
pub fn every_problem(np: u32, ns: u32, most: u32) -> impl Iterator<Item = Vec<i32>> {
    let kinds = every_option(np, ns);
    (1..=most).flat_map(move |count| {
        let kinds = kinds.clone();
        (0..kinds.len().pow(count)).map(move |code| {
            let options = (0..count).map(|at| kinds[code / kinds.len().pow(at) % kinds.len()].clone()).collect();
            words(np as i32, ns as i32, &options)
        })
    })
}

fn every_option(np: u32, ns: u32) -> Pairs {
    let mut options = vec![Vec::new()];
    for item in 0..(np + ns) as i32 {
        let colours = if item < np as i32 { 0..1 } else { 0..3 };
        let longer = |colour| options.iter().map(move |option: &Vec<_>| [&option[..], &[(item, colour)]].concat());
        let longer: Pairs = colours.flat_map(longer).collect();
        options.extend(longer);
    }
    options
}
