//! Document 01's examples and its door's rules, through the archive.

use tallyorchard::{Entry, Error, Problem, Refusal, call, solution};

const PLENTY: u64 = 1_000_000;

/// Options as pairs of item and colour.
fn problem(primary: i32, secondary: i32, options: &[&[(i32, i32)]]) -> Problem {
    let entries = |option: &&[(i32, i32)]| option.iter().map(|&(item, colour)| Entry { item, colour }).collect();
    Problem { primary, secondary, options: options.iter().map(entries).collect() }
}

fn plain(primary: i32, options: &[&[i32]]) -> Problem {
    let entries = |option: &&[i32]| option.iter().map(|&item| Entry::plain(item)).collect();
    Problem { primary, secondary: 0, options: options.iter().map(entries).collect() }
}

fn p1() -> Problem {
    plain(7, &[&[2, 4], &[0, 3, 6], &[1, 2, 5], &[0, 3, 5], &[1, 6], &[3, 4, 6]])
}

fn bytes(words: &[i32]) -> Vec<u8> {
    words.iter().flat_map(|word| word.to_le_bytes()).collect()
}

fn all(problem: &Problem) -> Vec<Vec<usize>> {
    (0..).map_while(|number| solution(problem, number, PLENTY).ok()).collect()
}

#[test]
fn the_examples_have_their_solutions() {
    assert_eq!(all(&p1()), [vec![3, 4, 0]]);
    assert_eq!(all(&plain(1, &[&[0]])), [vec![0]]);
    assert_eq!(all(&plain(1, &[&[0], &[0]])), [vec![0], vec![1]]);
    assert_eq!(all(&plain(2, &[&[0]])), Vec::<Vec<usize>>::new());
    let p6 = problem(2, 1, &[&[(0, 0), (2, 5)], &[(1, 0), (2, 5)], &[(1, 0), (2, 6)], &[(1, 0), (2, 0)]]);
    assert_eq!(all(&p6), [vec![0, 1]]);
    let p7 = problem(2, 1, &[&[(0, 0), (2, 0)], &[(1, 0), (2, 0)]]);
    assert_eq!(all(&p7), Vec::<Vec<usize>>::new());
    let p8 = problem(1, 1, &[&[(1, 0)], &[(0, 0)]]);
    assert_eq!(all(&p8), [vec![1]]);
    assert_eq!(all(&problem(1, 1, &[&[(1, 0)]])), Vec::<Vec<usize>>::new());
}

#[test]
fn eight_queens_have_92_solutions() {
    // Rows and columns are primary, the 30 diagonals secondary.
    let queens: Vec<Vec<Entry>> = (0..64)
        .map(|square| (square / 8, square % 8))
        .map(|(row, column)| [row, 8 + column, 16 + row + column, 31 + row + 7 - column].map(Entry::plain).to_vec())
        .collect();
    assert_eq!(all(&Problem { primary: 16, secondary: 30, options: queens }).len(), 92);
}

#[test]
fn the_allowance_is_for_the_whole_call() {
    assert_eq!(solution(&p1(), 0, 5), Ok(vec![3, 4, 0]));
    assert_eq!(solution(&p1(), 0, 4), Err(Error::AllowanceSpent));
    assert_eq!(solution(&p1(), 1, 5), Err(Error::NoSuchSolution));
    assert_eq!(solution(&plain(1, &[&[0], &[0]]), 1, 1), Ok(vec![1]));
    assert_eq!(solution(&plain(1, &[&[0], &[0]]), u64::MAX, 1), Err(Error::NoSuchSolution));
    assert_eq!(solution(&plain(2, &[&[0]]), 0, 0), Err(Error::AllowanceSpent));
}

#[test]
fn refusals_have_their_numbers() {
    let refused = |problem: &Problem| match solution(problem, 0, PLENTY) {
        Err(Error::Refused(refusal)) => refusal,
        other => panic!("{other:?}"),
    };
    assert_eq!(refused(&plain(0, &[&[0]])), Refusal::NoPrimaryItem);
    assert_eq!(refused(&plain(1, &[])), Refusal::NoOption);
    assert_eq!(refused(&plain(65, &[&[0]])), Refusal::TooLarge);
    assert_eq!(refused(&plain(1, &[&[0] as &[i32]; 65])), Refusal::TooLarge);
    assert_eq!(refused(&plain(1, &[&[0] as &[i32]; 5_000])), Refusal::TooLarge);
    assert_eq!(refused(&plain(1, &[&[0; 257] as &[i32]])), Refusal::TooLarge);
    assert_eq!(refused(&plain(1, &[&[0; 100_000] as &[i32]; 64])), Refusal::TooLarge);
    assert_eq!(refused(&problem(1, -1, &[&[(0, 0)]])), Refusal::NotAProblem);
    assert_eq!(refused(&plain(1, &[&[1]])), Refusal::ItemOutOfRange);
    assert_eq!(refused(&problem(1, 1, &[&[(0, 0), (1, 5), (1, 6)]])), Refusal::ItemRepeated);
    assert_eq!(refused(&problem(1, 0, &[&[(0, 7)]])), Refusal::PrimaryColoured);
    assert_eq!(refused(&problem(1, 1, &[&[(0, 0), (1, -1)]])), Refusal::ColourNegative);
    assert_eq!(solution(&problem(1, 1, &[&[(0, 0), (1, i32::MAX)]]), 0, PLENTY), Ok(vec![0]));
}

#[test]
fn the_limits_are_reached() {
    let options: Vec<Vec<i32>> = (0..64).map(|item| vec![item]).collect();
    let slices: Vec<&[i32]> = options.iter().map(Vec::as_slice).collect();
    assert_eq!(solution(&plain(64, &slices), 0, 64), Ok((0..64).collect()));
    assert_eq!(solution(&plain(64, &slices), 0, 63), Err(Error::AllowanceSpent));
    let full: Vec<i32> = (0..64).collect();
    assert_eq!(all(&plain(64, &[full.as_slice(); 4])), [vec![0], vec![1], vec![2], vec![3]]);
}

#[test]
fn the_door_itself_writes_no_byte_too_many() {
    let words = bytes(&[1, 0, 1, 1, 0, 0]);
    let mut out = [0xAA; 12];
    assert_eq!(call(&words, 0, 1, &mut out), 0);
    assert_eq!(out, [1, 0, 0, 0, 0, 0, 0, 0, 0xAA, 0xAA, 0xAA, 0xAA]);
    for (number, allowance, length, answer) in
        [(1, 1, 12, 20), (0, 0, 12, 21), (0, 1, 7, 9), (0, 1, 3, 9), (0, 1, 0, 9)]
    {
        let mut out = vec![0xAA; length];
        assert_eq!(call(&words, number, allowance, &mut out), answer);
        assert!(out.iter().all(|&byte| byte == 0xAA));
    }
    assert_eq!(call(&words[..23], 0, 1, &mut out), 4);
    assert_eq!(call(&[], 0, 1, &mut []), 4);
}

#[test]
fn more_words_than_the_limits_allow_are_refused_in_order() {
    let mut out = [0; 260];
    let mut answer = |heads: [i32; 3], counts: &[i32]| {
        let mut words = heads.to_vec();
        for &count in counts {
            words.push(count);
            words.extend(vec![0; 2 * count.max(0) as usize]);
        }
        words.resize(words.len().max(580), 0);
        call(&bytes(&words), 0, 1, &mut out)
    };
    assert_eq!(answer([0, 0, 1], &[300]), 1);
    assert_eq!(answer([1, 0, 0], &[300]), 2);
    assert_eq!(answer([1, -1, 1], &[300]), 4);
    assert_eq!(answer([1, 64, 1], &[300]), 3);
    assert_eq!(answer([1, 0, 65], &[-1]), 3);
    assert_eq!(answer([1, 0, 1], &[300]), 3);
    assert_eq!(answer([1, 0, 2], &[300]), 4);
    assert_eq!(answer([1, 0, 2], &[300, 0]), 3);
    assert_eq!(answer([1, 0, 1], &[300, 0]), 4);
    assert_eq!(answer([1, 0, 2], &[300, -1]), 4);
    assert_eq!(answer([1, 0, 2], &[-1, 300]), 4);
}
