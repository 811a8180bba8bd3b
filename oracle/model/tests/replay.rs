//! What the replay program reads and prints.

use model::replay::{LONGEST_INPUT, run};

#[test]
fn prints_the_answer_and_every_list_lent() {
    let table = "1 1 0 0 2 2 0 0 0 0 1 3 3 0 0 0 3 0 1 1 1 0 -1 3 0 0";
    let sevens = ["7"; 26].join(" ");
    let expected = format!("0 0 0 0 0\n{table}\n{sevens}\n0\n0 7\n7\n\n");
    assert_eq!(run(b"p 1 0 1 1 0 0\nl 26 26 1 2 1\nu\nr\n"), expected);
}

#[test]
fn starts_with_nothing_lent_and_a_blank_state() {
    assert_eq!(run(b"g\n"), "4 0 0 0 0\n\n\n\n\n\n");
}

#[test]
fn ends_at_the_first_line_that_is_no_command() {
    let bad = [
        "",
        " ",
        "x",
        "u ",
        " u",
        "u 1",
        "n",
        "n 1 2",
        "n  1",
        "n -1",
        "n 01",
        "n +1",
        "n -0",
        "n 18446744073709551616",
        "p ",
        "p 2147483648",
        "p -2147483649",
        "p 1\r",
        "l 1 1 1 1",
        "l 8193 0 0 0 0",
        "l 0 0 257 0 0",
        "w 0 0 1",
        "w 5 0 1",
        "w 3 0 -1",
        "s 3 0 0",
        "s 0 4294967296 0",
        "s 0 -1 0",
        "r 0",
        "g g",
    ];
    for line in bad {
        assert_eq!(run(format!("r\n{line}\nr\n").as_bytes()), "\nbad 2\n", "{line:?}");
    }
    assert_eq!(run(b"r\nr"), "\nbad 2\n");
    assert_eq!(run(b"l 1 1 1 1 1\nw 3 0 18446744073709551615\nw 3 1 0\n"), "bad 3\n");
    let problem = |words: usize| format!("p{}\n", " 1".repeat(words));
    assert_eq!(run(problem(4_096).as_bytes()), "");
    assert_eq!(run(problem(4_097).as_bytes()), "bad 1\n");
}

#[test]
fn refuses_longer_input_whole() {
    let full = "r\n".repeat(LONGEST_INPUT / 2);
    assert_eq!(run(full.as_bytes()).len(), LONGEST_INPUT / 2);
    assert_eq!(run(format!("{full}r").as_bytes()), "bad 0\n");
}
