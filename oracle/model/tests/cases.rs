//! Document 01's P-cases and sentences on the model.

use model::calls::{BLANK, Lent, Outcome, Phase, State, give_up, host_door, next, refusal_of_words, report, set_up};

const ALL: u64 = u64::MAX;

struct Run {
    words: Vec<i32>,
    lent: Lent,
    state: State,
}

fn run(words: &[i32]) -> Run {
    let room = 400;
    let list = vec![7; 8];
    let lent =
        Lent { table: vec![7; room], spare: vec![7; room], path: list.clone(), profile: vec![7; 8], found: list };
    let mut run = Run { words: words.to_vec(), lent, state: BLANK };
    assert_eq!(set_up(&run.words, &mut run.lent), Outcome { answer: 0, visits: 0, state: BLANK });
    run
}

impl Run {
    /// Answer, visits and updates of the next call.
    fn next(&mut self, allowance: u64) -> (u32, u64, u64) {
        let Outcome { answer, visits, state } = next(&self.words, &mut self.lent, self.state, allowance);
        self.state = state;
        (answer, visits, state.updates)
    }

    fn report(&self) -> &[i32] {
        report(self.state, &self.lent.found)
    }
}

const P1: [i32; 41] = [
    7, 0, 6, 2, 2, 0, 4, 0, 3, 0, 0, 3, 0, 6, 0, 3, 1, 0, 2, 0, 5, 0, 3, 0, 0, 3, 0, 5, 0, 2, 1, 0, 6, 0, 3, 3, 0, 4,
    0, 6, 0,
];

#[test]
fn p1() {
    let mut p = run(&P1);
    assert_eq!(p.next(ALL), (0, 5, 28));
    assert_eq!(p.report(), [3, 4, 0]);
    assert_eq!(p.lent.profile, [1, 2, 2, 0, 0, 0, 0, 7]);
    assert_eq!(p.next(ALL), (20, 0, 28));
    assert_eq!(p.state, State { phase: Phase::Done, depth: 0, updates: 28 });
}

#[test]
fn p2() {
    let mut p = run(&P1);
    assert_eq!(p.next(2), (21, 2, 16));
    assert_eq!(p.state.depth, 2);
    // Options 1 and 2 begin at nodes 12 and 16, which are those of their items 0 and 1.
    assert_eq!(p.lent.path, [12, 16, 0, 0, 0, 0, 0, 7]);
    let before = p.lent.clone();
    assert_eq!(p.next(0), (21, 0, 16));
    assert_eq!(p.lent, before);
}

#[test]
fn p3() {
    let mut p = run(&[1, 0, 1, 1, 0, 0]);
    assert_eq!(p.next(ALL), (0, 1, 1));
    assert_eq!(p.report(), [0]);
    assert_eq!(p.next(ALL), (20, 0, 1));
    assert_eq!(p.next(ALL), (0, 1, 1));
    assert_eq!(p.report(), [0]);
    assert_eq!(p.lent.profile[0], 2);
}

#[test]
fn p4() {
    let mut p = run(&[1, 0, 2, 1, 0, 0, 1, 0, 0]);
    assert_eq!((p.next(ALL).1, p.report()), (1, &[0][..]));
    assert_eq!((p.next(ALL).1, p.report()), (0, &[1][..]));
    assert_eq!((p.next(ALL).0, p.lent.profile[0]), (20, 1));
}

#[test]
fn p5() {
    assert_eq!(run(&[2, 0, 1, 1, 0, 0]).next(ALL), (20, 1, 0));
}

#[test]
fn p6() {
    let mut p = run(&[2, 1, 4, 2, 0, 0, 2, 5, 2, 1, 0, 2, 5, 2, 1, 0, 2, 6, 2, 1, 0, 2, 0]);
    assert_eq!(p.next(ALL), (0, 2, 5));
    assert_eq!(p.report(), [0, 1]);
    assert_eq!(p.next(ALL), (20, 0, 5));
}

#[test]
fn p7() {
    assert_eq!(run(&[2, 1, 2, 2, 0, 0, 2, 0, 2, 1, 0, 2, 0]).next(ALL), (20, 2, 4));
}

#[test]
fn p8() {
    let mut p = run(&[1, 1, 2, 1, 1, 0, 1, 0, 0]);
    let fresh = [1, 1, 0, 0, 3, 3, 2, 2, 0, 0, 0, 0, 1, 4, 4, 0, 0, 2, 2, 0, 0, 0, 4, 0, 1, 1, 1, 0, -2, 4, 0, 0];
    assert_eq!(p.lent.table[..fresh.len()], fresh);
    assert!(p.lent.table[fresh.len()..].iter().all(|&word| word == 7));
    assert_eq!((p.next(ALL).0, p.report()), (0, &[1][..]));
}

#[test]
fn p9() {
    assert_eq!(run(&[1, 1, 1, 1, 1, 0]).next(ALL), (20, 1, 0));
}

#[test]
fn p10_to_p12_and_the_other_refusals_of_words() {
    let cases: [(&[i32], Option<u32>); 20] = [
        (&[1, 0, 1, 1, 1, 0], Some(5)),
        (&[1, 1, 1, 3, 0, 0, 1, 5, 1, 6], Some(6)),
        (&[1, 0, 1, 1, 0, 7], Some(7)),
        (&[1, 1, 1, 2, 0, 0, 1, -1], Some(8)),
        (&[1, 1, 1, 2, 0, 0, 1, i32::MAX], None),
        (&[], Some(4)),
        (&[0, 0], Some(4)),
        (&[0, -1, 0], Some(1)),
        (&[1, -1, 0], Some(2)),
        (&[i32::MAX, -1, 1], Some(4)),
        (&[i32::MAX, i32::MAX, 1], Some(3)),
        (&[1, 1024, 1], Some(3)),
        (&[1, 1023, 1], Some(4)),
        (&[1, 1023, 1, 1, 0, 0], None),
        (&[1, 0, 4097], Some(3)),
        (&[1, 0, 4096], Some(4)),
        (&[1, 0, 1, i32::MAX], Some(4)),
        (&[1, 0, 1, -1], Some(4)),
        (&[1, 0, 1, 0, 0], Some(4)),
        (&[1, 1, 2, 2, 0, 0, 0, 7, 1, 9, 0], Some(6)),
    ];
    for (words, refusal) in cases {
        assert_eq!(refusal_of_words(words), refusal, "{words:?}");
    }
}

#[test]
fn entries_are_counted_after_the_cut_and_in_skipped_options_too() {
    // Sixteen options of all 1,024 items are 16,384 entries; a skipped option adds one.
    let full: Vec<i32> = std::iter::once(1024).chain((0..1024).flat_map(|item| [item, 0])).collect();
    let words = |more: &[i32], count: i32| [&[1, 1023, count][..], &full.repeat(16), more].concat();
    assert_eq!(refusal_of_words(&words(&[], 16)), None);
    assert_eq!(refusal_of_words(&words(&[1, 5, 0], 17)), Some(3));
    assert_eq!(refusal_of_words(&words(&[1, 5], 17)), Some(4));
}

#[test]
fn next_from_done_without_allowance() {
    let mut p = run(&[2, 0, 1, 1, 0, 0]);
    p.next(ALL);
    p.state.updates = 9;
    assert_eq!(p.next(0), (21, 0, 0));
    assert_eq!(p.state, BLANK);
}

#[test]
fn give_up_keeps_updates_and_refusal_10_writes_the_spare_alone() {
    let mut p = run(&P1);
    let fresh = p.lent.table.clone();
    p.next(2);
    p.lent.spare.fill(7);
    let before = p.lent.clone();
    let wrong = State { depth: 1, ..p.state };
    assert_eq!(give_up(&p.words, &mut p.lent, wrong), Outcome { answer: 10, visits: 0, state: wrong });
    assert_eq!(p.lent, Lent { spare: fresh.clone(), ..before });
    let given_up = Outcome { answer: 0, visits: 0, state: State { updates: 16, ..BLANK } };
    assert_eq!(give_up(&p.words, &mut p.lent, p.state), given_up);
    assert_eq!((&p.lent.table, &p.lent.path[..7]), (&fresh, &[0; 7][..]));
}

#[test]
fn counts_are_capped_and_refused_above_the_cap() {
    const CAP: u64 = i64::MAX as u64;
    let mut p = run(&[1, 0, 1, 1, 0, 0]);
    p.state.updates = CAP;
    p.lent.profile[0] = CAP;
    assert_eq!(p.next(ALL), (0, 1, CAP));
    assert_eq!(p.lent.profile[0], CAP);
    p.lent.profile[1] = CAP + 1;
    assert_eq!(p.next(ALL), (20, 0, CAP));
    p.lent.profile[0] = CAP + 1;
    assert_eq!(p.next(ALL).0, 11);
    p.lent.profile[0] = 0;
    p.state.updates = CAP + 1;
    assert_eq!(p.next(ALL).0, 11);
}

#[test]
fn door() {
    let bytes: Vec<u8> = P1.iter().flat_map(|word| word.to_le_bytes()).collect();
    let mut out = [9; 33];
    assert_eq!(host_door(&bytes, 0, 4, &mut out), 21);
    assert_eq!(host_door(&bytes, 1, 5, &mut out), 20);
    assert_eq!(host_door(&bytes[..7], 0, 5, &mut out), 4);
    assert_eq!(host_door(&bytes, 0, 5, &mut out[..31]), 9);
    assert_eq!(out, [9; 33]);
    assert_eq!(host_door(&bytes, 0, 5, &mut out), 0);
    assert_eq!(out[..17], [3, 0, 0, 0, 3, 0, 0, 0, 4, 0, 0, 0, 0, 0, 0, 0, 9]);
}
