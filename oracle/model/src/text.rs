//! The text form of document 02's request 1, read as its sentences say.

pub const LONGEST_TEXT: usize = 65_536;

/// What is wrong with a line.
#[derive(Clone, Copy, PartialEq, Eq, PartialOrd, Ord, Debug)]
pub enum Fault {
    /// A refused byte.
    Byte,
    /// The items line.
    Items,
    /// A token of an option, by itself.
    Token,
    /// A token of an option that stands again as it is.
    Again,
    /// An item that stands again in its option, in another token.
    AgainOtherwise,
}

#[derive(Clone, PartialEq, Eq, Debug)]
pub enum Reading {
    Words(Vec<i32>),
    /// The number of the first faulty line.
    Faulty(usize, Fault),
    /// No line is faulty, but items or options are missing.
    Missing,
    Long,
}

struct Items<'t> {
    np: usize,
    names: Vec<&'t [u8]>,
}

fn is_white(byte: u8) -> bool {
    matches!(byte, b' ' | b'\t' | b'\r')
}

fn tokens(line: &[u8]) -> Vec<&[u8]> {
    line.split(|byte| is_white(*byte)).filter(|token| !token.is_empty()).collect()
}

fn is_refused(byte: u8) -> bool {
    byte > 126 || (byte < 32 && !matches!(byte, b'\t' | b'\n' | b'\r'))
}

fn items_of<'t>(tokens: &[&'t [u8]], front: bool) -> Result<Items<'t>, Fault> {
    let bars = tokens.iter().filter(|token| **token == b"|").count();
    let bar = tokens.iter().position(|token| *token == b"|").unwrap_or(tokens.len());
    let (primary, secondary) = (&tokens[..bar], tokens.get(bar + 1..).unwrap_or_default());
    if bars > 1 || (bars == 1 && secondary.is_empty()) {
        return Err(Fault::Items);
    }
    let (sharp, plain): (Vec<&[u8]>, Vec<&[u8]>) = primary.iter().partition(|name| name.contains(&b'#'));
    let (first, second) = if front { (sharp, plain) } else { (plain, sharp) };
    let names: Vec<&[u8]> = first.into_iter().chain(second).chain(secondary.iter().copied()).collect();
    let is_name = |name: &&[u8]| name.iter().all(|byte| byte.is_ascii_alphanumeric() || *byte == b'#');
    let repeated = |at: usize| names[..at].contains(&names[at]);
    if !names.iter().all(is_name) || (0..names.len()).any(repeated) {
        return Err(Fault::Items);
    }
    Ok(Items { np: primary.len(), names })
}

fn option_of(tokens: &[&[u8]], items: &Items) -> Result<Vec<i32>, Fault> {
    let mut words = vec![tokens.len() as i32];
    let mut faults = Vec::new();
    let mut used: Vec<usize> = Vec::new();
    for (at, token) in tokens.iter().enumerate() {
        let parts: Vec<&[u8]> = token.split(|byte| *byte == b':').collect();
        let colour = match parts[1..] {
            [] => Some(0),
            [[colour]] => Some(i32::from(*colour)),
            _ => None,
        };
        let item = items.names.iter().position(|name| *name == parts[0]);
        match (item, colour) {
            (Some(item), Some(colour)) if colour == 0 || item >= items.np => {
                if used.contains(&item) {
                    let again = tokens[..at].contains(token);
                    faults.push(if again { Fault::Again } else { Fault::AgainOtherwise });
                }
                used.push(item);
                words.extend([item as i32, colour]);
            }
            _ => faults.push(Fault::Token),
        }
    }
    faults.into_iter().min().map_or(Ok(words), Err)
}

/// The problem words of a text, primary names with `#` at the front or the back.
pub fn read(text: &[u8], front: bool) -> Reading {
    if text.len() > LONGEST_TEXT {
        return Reading::Long;
    }
    let mut items: Option<Items> = None;
    let mut options = Vec::new();
    for (at, line) in text.split(|byte| *byte == b'\n').enumerate() {
        let tokens = tokens(line);
        let passed = tokens.first().is_none_or(|token| token.starts_with(b"|"));
        let judged = if line.iter().any(|byte| is_refused(*byte)) {
            Err(Fault::Byte)
        } else if passed {
            Ok(())
        } else if let Some(items) = &items {
            option_of(&tokens, items).map(|option| options.push(option))
        } else {
            items_of(&tokens, front).map(|found| items = Some(found))
        };
        if let Err(fault) = judged {
            return Reading::Faulty(at + 1, fault);
        }
    }
    match items {
        Some(items) if !options.is_empty() => {
            let heads = [items.np, items.names.len() - items.np, options.len()];
            Reading::Words(heads.map(|head| head as i32).into_iter().chain(options.into_iter().flatten()).collect())
        }
        _ => Reading::Missing,
    }
}

/// What the program prints of a reading, where the lines of its solutions are told by `solutions`.
pub fn printed(reading: &Reading, solutions: impl Fn() -> String) -> String {
    match reading {
        Reading::Long => "refused 3\n".into(),
        Reading::Missing => "refused 13 0\n".into(),
        Reading::Faulty(line, _) => format!("refused 13 {line}\n"),
        Reading::Words(words) => {
            let entries = (words.len() - 3 - words[2] as usize) / 2;
            if words[0] + words[1] > 64 || words[2] > 64 || entries > 256 { "refused 3\n".into() } else { solutions() }
        }
    }
}

#[cfg(test)]
mod tests {
    use super::*;

    #[test]
    fn p1() {
        let words = [
            7, 0, 6, 2, 2, 0, 4, 0, 3, 0, 0, 3, 0, 6, 0, 3, 1, 0, 2, 0, 5, 0, 3, 0, 0, 3, 0, 5, 0, 2, 1, 0, 6, 0, 3, 3,
            0, 4, 0, 6, 0,
        ];
        let text = b"a b c d e f g\nc e\na d g\nb c f\na d f\nb g\nd e g\n";
        assert_eq!(read(text, true), Reading::Words(words.to_vec()));
    }

    #[test]
    fn faults() {
        let line = |text: &[u8]| match read(text, true) {
            Reading::Faulty(line, _) => line,
            Reading::Missing => 0,
            other => panic!("{other:?}"),
        };
        assert_eq!(line(b"a | s\na s:a s:b"), 2);
        assert_eq!(line(b"a\na\n\x7f"), 3);
        assert_eq!(line(b"\na |\na"), 2);
        assert_eq!(line(b"a a"), 1);
        assert_eq!(line(b"a b\n|\n"), 0);
    }
}
