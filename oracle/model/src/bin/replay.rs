//! The replay program over the model, to stand beside the project's own.

use std::io::{Read, Write};

fn main() -> std::io::Result<()> {
    let mut input = Vec::new();
    std::io::stdin().read_to_end(&mut input)?;
    std::io::stdout().write_all(model::replay::run(&input).as_bytes())
}
