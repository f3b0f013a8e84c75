// Rewrites an old answer table, through talavorn.rs: reads a table of the layout before W-209 from
// all of standard input and writes the new table, in which each entry has a lifetime of 0, to
// standard output: bytes, without a newline. It prints `refused`, number and place for a refusal.
// What it prints is what the proved program add_lifetimes prints.
mod talavorn;

use std::io::{Read, Write};

// The longest table, and a byte that makes it too long: what follows these changes nothing.
const MOST_INPUT: u64 = 65535 + 1;

fn main() -> std::io::Result<()> {
    let mut old = Vec::new();
    std::io::stdin().take(MOST_INPUT).read_to_end(&mut old)?;
    let printed = match talavorn::add_lifetimes(&old) {
        Ok(new) => new,
        Err(r) => format!("refused {} at {}\n", r.number, r.place).into_bytes(),
    };
    std::io::stdout().write_all(&printed)
}
