//! Inputs at the edge of the replay program's form, most of them past it.

use model::replay::{LONGEST_INPUT, LONGEST_LIST, LONGEST_PROBLEM, LONGEST_TABLE};

/// Lines to be read or refused; each follows a good line, so that its number is 2.
const LINES: [&str; 62] = [
    "",
    " ",
    "x",
    "U",
    "pp",
    "u ",
    " u",
    "u 1",
    "u\r",
    "u\t",
    "u\0",
    "g g",
    "r 0",
    "r -1",
    "n",
    "n ",
    "n 1 2",
    "n  1",
    "n\t1",
    "n -1",
    "n -0",
    "n +1",
    "n 01",
    "n 0x1",
    "n 1.",
    "n 1 ",
    "n ٣",
    "n 18446744073709551615",
    "n 18446744073709551616",
    "n 99999999999999999999999",
    "p",
    "p ",
    "p  1",
    "p 1 ",
    "p 1,2",
    "p 2147483647 -2147483648",
    "p 2147483648",
    "p -2147483649",
    "p --1",
    "p -",
    "p 1-",
    "p -00",
    "p 9223372036854775808",
    "l",
    "l 1 1 1 1",
    "l 1 1 1 1 1 1",
    "l -1 0 0 0 0",
    "l 01 0 0 0 0",
    "l 18446744073709551616 0 0 0 0",
    "w 0 0",
    "w 5 0 1",
    "w -1 0 1",
    "w 3 0 -1",
    "w 3 0 18446744073709551616",
    "w 0 0 2147483648",
    "w 0 -1 1",
    "s 3 0 0",
    "s -1 0 0",
    "s 0 -1 0",
    "s 0 4294967296 0",
    "s 0 0 18446744073709551616",
    "s 0 0",
];

pub fn inputs() -> Vec<Vec<u8>> {
    let mut inputs: Vec<Vec<u8>> = LINES.iter().map(|line| format!("r\n{line}\nr\n").into_bytes()).collect();
    inputs.push(Vec::new());
    inputs.push(b"r\nr".to_vec());
    inputs.push(b"r\n\xff\nr\n".to_vec());
    for (list, most) in [LONGEST_TABLE, LONGEST_TABLE, LONGEST_LIST, LONGEST_LIST, LONGEST_LIST].into_iter().enumerate()
    {
        inputs.push(lengths(list, most));
        inputs.push(lengths(list, most + 1));
        inputs.push([lengths(list, 2), format!("w {list} 1 5\nw {list} 2 5\n").into_bytes()].concat());
    }
    for words in [LONGEST_PROBLEM, LONGEST_PROBLEM + 1] {
        inputs.push(format!("p{}\nu\n", " 1".repeat(words)).into_bytes());
    }
    for length in [LONGEST_INPUT, LONGEST_INPUT + 1, LONGEST_INPUT + 2, 3 * LONGEST_INPUT] {
        inputs.push(b"r\n".iter().copied().cycle().take(length).collect());
    }
    inputs
}

/// One list lent with a length, the others with none; the call shows them.
fn lengths(list: usize, length: usize) -> Vec<u8> {
    let lengths: Vec<String> = (0..5).map(|other| if other == list { length } else { 0 }.to_string()).collect();
    format!("l {}\ng\n", lengths.join(" ")).into_bytes()
}
