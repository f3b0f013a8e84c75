// Holds a record against the house rules, through talavorn.rs: reads a domain name from the first
// line of standard input and the record from all that follows, without one final newline, and
// prints three lines for each breach: the rule, the place and the rule's words; the record; and `^`
// under the place. It prints `ok` if there is none, and `refused`, number and place for a refusal.
// What it prints is what the proved program lint_record prints.
mod talavorn;

use std::io::{Read, Write};
use talavorn::{house_rules, RULES};

// A name, a newline, the longest record that is read and a newline, and a byte that makes it too
// long: what follows these changes nothing.
const MOST_INPUT: u64 = 255 + 1 + 4096 + 1 + 1;

fn lint(domain: &[u8], record: &[u8]) -> Vec<u8> {
    let breaches = match house_rules(domain, record) {
        Err(r) => return format!("refused {} at {}\n", r.number, r.place).into_bytes(),
        Ok(breaches) if breaches.is_empty() => return b"ok\n".to_vec(),
        Ok(breaches) => breaches,
    };
    let mut out = Vec::new();
    for b in breaches {
        let words = RULES[usize::from(b.rule) - 1];
        out.extend(format!("{} at {}: {words}\n", b.rule, b.place).into_bytes());
        out.extend(record);
        out.extend(format!("\n{:1$}^\n", "", b.place).into_bytes());
    }
    out
}

fn main() -> std::io::Result<()> {
    let mut input = Vec::new();
    std::io::stdin().take(MOST_INPUT).read_to_end(&mut input)?;
    let mut parts = input.splitn(2, |b| *b == b'\n');
    let (domain, rest) = (parts.next().unwrap_or(b""), parts.next().unwrap_or(b""));
    std::io::stdout().write_all(&lint(domain, rest.strip_suffix(b"\n").unwrap_or(rest)))
}
