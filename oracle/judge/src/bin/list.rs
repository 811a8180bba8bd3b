//! Writes the replay list: `stdin`, the commands, and `stdout`, what they must print.

use std::path::Path;

use judge::author::Author;
use judge::problems::{self, Shape};
use judge::{Random, exercises};
use model::replay::LONGEST_INPUT;

/// Document 01's P-cases that are not refused.
const CASES: [&[i32]; 8] = [
    &[
        7, 0, 6, 2, 2, 0, 4, 0, 3, 0, 0, 3, 0, 6, 0, 3, 1, 0, 2, 0, 5, 0, 3, 0, 0, 3, 0, 5, 0, 2, 1, 0, 6, 0, 3, 3, 0,
        4, 0, 6, 0,
    ],
    &[1, 0, 1, 1, 0, 0],
    &[1, 0, 2, 1, 0, 0, 1, 0, 0],
    &[2, 0, 1, 1, 0, 0],
    &[2, 1, 4, 2, 0, 0, 2, 5, 2, 1, 0, 2, 5, 2, 1, 0, 2, 6, 2, 1, 0, 2, 0],
    &[2, 1, 2, 2, 0, 0, 2, 0, 2, 1, 0, 2, 0],
    &[1, 1, 2, 1, 1, 0, 1, 0, 0],
    &[1, 1, 1, 1, 1, 0],
];

/// Refused words: each row of document 01's table, alone and beside a later one.
const REFUSED: [&[i32]; 37] = [
    &[],
    &[0],
    &[0, -1],
    &[0, 0, 0],
    &[-1, -1, 0],
    &[i32::MIN, 0, 1],
    &[1, 0, 0],
    &[1, -1, -1],
    &[1, 0, i32::MIN],
    &[1, -1, 1],
    &[i32::MAX, -1, 4_097],
    &[1, i32::MIN, 1, -1],
    &[1, 1_024, 1, 1, 0, 0],
    &[1_025, 0, 1, -1],
    &[i32::MAX, i32::MAX, i32::MAX],
    &[1, 0, 4_097],
    &[1, 0, 4_096],
    &[1_024, 0, 1],
    &[1, 0, 1],
    &[1, 0, 1, -1],
    &[1, 0, 1, i32::MIN, 0, 0],
    &[1, 0, 1, i32::MAX, 0, 0],
    &[1, 0, 1, 1, 0],
    &[1, 0, 1, 1, 0, 0, 0],
    &[1, 0, 2, 1, 0, 0],
    &[1, 0, 1, 1, 1, 0],
    &[1, 0, 1, 1, -1, 0],
    &[1, 0, 1, 1, i32::MIN, -1],
    &[1, 0, 2, 1, 0, 0, 1, i32::MAX, 0],
    &[1, 1, 1, 3, 0, 0, 1, 5, 1, 6],
    &[1, 1, 1, 2, 0, 0, 0, 7],
    &[1, 1, 2, 0, 2, 1, 0, 1, -1],
    &[1, 0, 1, 1, 0, 7],
    &[1, 0, 1, 1, 0, -1],
    &[1, 1, 1, 2, 0, 0, 1, -1],
    &[1, 1, 2, 1, 1, i32::MIN, 1, 0, 7],
    &[2, 0, 2, 1, 0, 9, 1, 5, 0],
];

struct List {
    author: Author,
    random: Random,
}

impl List {
    /// A problem of a random shape whose search has at most so many visits and solutions together.
    fn begin(&mut self, shape: &Shape, stops: usize) {
        loop {
            let words = problems::sound(&mut self.random, shape);
            let mut trial = Author::default();
            if trial.lend(&words, 0) && trial.size().is_some_and(|(visits, solutions)| visits + solutions <= stops) {
                let spare_room = self.random.pick(&[0, 0, 1, 2]);
                self.author.lend(&words, spare_room);
                return;
            }
        }
    }

    fn cases(&mut self) {
        for words in CASES {
            self.author.lend(words, 1);
            exercises::step_by_step(&mut self.author);
            exercises::every_solution(&mut self.author);
            exercises::give_up_everywhere(&mut self.author);
        }
        self.author.lend(CASES[0], 0);
        for call in ["u", "n 2", "n 0"] {
            self.author.write(call);
        }
    }

    fn refusals(&mut self) {
        for words in REFUSED {
            let spare_room = self.random.pick(&[0, 2]);
            self.author.lend(words, spare_room);
            assert!(self.author.trace().is_none(), "accepted: {words:?}");
            self.author.write("s 1 3 5");
            self.author.write("n 1");
            self.author.write("g");
            self.author.write("u");
        }
        // A faulty entry in lists that are too short: 9 comes first.
        self.author.lend(&[1, 0, 1, 2, 0, 0, 3, 0], 0);
        self.author.write("l 29 30 1 1 1");
        exercises::each_call(&mut self.author);
        self.author.write("l 30 30 1 1 1");
        exercises::each_call(&mut self.author);
        // Reports in every phase, with the list long enough and not.
        for state in ["s 0 2 0", "s 1 2 0", "s 2 2 0", "s 1 1 0", "s 1 0 0", "s 1 3 0", "s 1 4294967295 0"] {
            self.author.write("l 0 0 0 0 2");
            self.author.write("w 4 1 -5");
            self.author.write(state);
            self.author.write("r");
        }
    }

    /// Words of table, path and state that are no point of the search, one of each kind.
    fn no_points(&mut self) {
        self.author.lend(CASES[4], 1);
        self.author.write("u");
        self.author.write("n 1");
        let (table, path) = (self.author.machine.lent.table.clone(), self.author.machine.lent.path.clone());
        for (at, word) in table.iter().enumerate() {
            self.author.write(&format!("w 0 {at} {}", word ^ 1));
            let outcome = self.author.write(if at % 2 == 0 { "n 0" } else { "g" });
            if outcome.is_some_and(|outcome| outcome.answer == 10) {
                self.author.write(&format!("w 0 {at} {word}"));
            } else {
                // The word past the stated length, which no call looks at.
                self.author.write("u");
                self.author.write("n 1");
            }
        }
        for node in [0, 1, 3, 4, 6, 7, -1, path[0] + 3, 16, 17, i32::MAX, i32::MIN] {
            self.author.write(&format!("w 2 0 {node}"));
            self.author.write("n 1");
        }
        self.author.write(&format!("w 2 0 {}", path[0]));
        for state in ["s 0 0 1", "s 0 2 1", "s 0 3 1", "s 0 4294967295 1", "s 1 1 1", "s 2 1 1", "s 2 0 1"] {
            self.author.write(state);
            self.author.write("g");
        }
        self.author.write("s 0 1 3");
        self.author.write("n 9");
    }

    fn many(&mut self, count: usize, shape: &Shape, stops: usize, exercise: fn(&mut Author, &mut Random)) {
        for _ in 0..count {
            self.begin(shape, stops);
            exercise(&mut self.author, &mut self.random);
        }
    }

    fn faulty(&mut self, count: usize) {
        let mut made = 0;
        while made < count {
            let mut words = problems::sound(&mut self.random, &Shape::Small);
            problems::spoil(&mut self.random, &mut words);
            let mut trial = Author::default();
            if trial.lend(&words, 0) && trial.trace().is_none() {
                self.author.lend(&words, 0);
                exercises::each_call(&mut self.author);
                made += 1;
            }
        }
    }

    fn boundaries(&mut self) {
        self.author.lend(&[1, 1_023, 1, 2, 0, 0, 1_023, i32::MAX], 0);
        self.author.write("u");
        self.author.write("n 1");
        self.author.lend(&[1, 1_024, 1, 1, 0, 0], 0);
        self.author.write("l 0 0 1 1 1");
        exercises::each_call(&mut self.author);
        for colour in [i32::MAX, -1] {
            self.author.lend(&problems::words(2, 1, &vec![vec![(0, 0), (2, i32::MAX)], vec![(2, colour), (1, 0)]]), 0);
            exercises::step_by_step(&mut self.author);
        }
    }

    fn eight_queens(&mut self) {
        self.author.lend(&problems::queens(8), 0);
        exercises::every_solution(&mut self.author);
        for call in ["n 3", "n 500", "g", "g"] {
            self.author.write(call);
        }
    }
}

fn whole_list() -> Author {
    let mut list = List { author: Author::default(), random: Random::new(3) };
    list.author.write("r");
    exercises::each_call(&mut list.author);
    list.cases();
    list.refusals();
    list.no_points();
    list.many(36, &Shape::Small, 8, |author, _| exercises::step_by_step(author));
    list.many(24, &Shape::Coloured, 10, |author, _| exercises::step_by_step(author));
    list.many(5, &Shape::Wide, 12, |author, _| exercises::step_by_step(author));
    list.many(20, &Shape::Small, 10, |author, _| exercises::every_solution(author));
    list.many(14, &Shape::Coloured, 8, |author, _| exercises::give_up_everywhere(author));
    list.many(10, &Shape::Small, 10, |author, _| exercises::short_lists(author));
    list.many(16, &Shape::Small, 12, exercises::counts);
    list.many(56, &Shape::Small, 12, |author, random| exercises::mixture(author, random, 8));
    list.many(22, &Shape::Coloured, 14, |author, random| exercises::mixture(author, random, 7));
    list.faulty(40);
    list.boundaries();
    list.eight_queens();
    list.author
}

fn main() -> std::io::Result<()> {
    let folder = std::env::args().nth(1).expect("list FOLDER");
    let author = whole_list();
    assert!(author.input.len() <= LONGEST_INPUT, "{} bytes do not fit", author.input.len());
    assert_eq!(model::replay::run(author.input.as_bytes()), author.output, "the list as written and as read");
    std::fs::create_dir_all(&folder)?;
    std::fs::write(Path::new(&folder).join("stdin"), &author.input)?;
    std::fs::write(Path::new(&folder).join("stdout"), &author.output)?;
    println!("{}", author.tally);
    println!("stdin {} bytes, stdout {} bytes", author.input.len(), author.output.len());
    Ok(())
}
