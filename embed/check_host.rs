// Checks a client, through talavorn.rs: reads client, domain, sender, HELO, receiver and t from
// standard input, a line each, then the answer table, and prints number, kind or place, both counts
// and the lifetime on a line, and for 3 and 7 the text or name on a second. For a fail the number,
// the kind and what stands on the second line are those of the second call. A client or t that
// cannot be read prints `input`. What it prints is what the proved program check_host prints.
mod talavorn;

use std::io::{Read, Write};
use talavorn::{
    evaluate, explain, read_address, Answer, Counts, Explanation, Mail, Question, Refusal, FAIL,
    WANTING,
};

// Takes a line off the front of what is left; one that is missing is empty.
fn take_line<'a>(rest: &mut &'a [u8]) -> &'a [u8] {
    let all = *rest;
    match all.iter().position(|b| *b == b'\n') {
        Some(n) => {
            *rest = &all[n + 1..];
            &all[..n]
        }
        None => {
            *rest = &all[all.len()..];
            all
        }
    }
}

// A decimal number below 2^64, leading zeros allowed.
fn read_number(s: &[u8]) -> Option<u64> {
    let mut value: u64 = 0;
    for b in s {
        if !b.is_ascii_digit() {
            return None;
        }
        value = value.checked_mul(10)?.checked_add(u64::from(b - b'0'))?;
    }
    if s.is_empty() { None } else { Some(value) }
}

// What is printed: number, kind or place, counts and lifetime, and a second line.
type Shown = (u8, Option<usize>, Counts, Option<Vec<u8>>);

fn wanting(question: Question, counts: Counts) -> Shown {
    (WANTING, Some(question.kind.into()), counts, Some(question.name))
}

fn refused(refusal: Refusal) -> Shown {
    let place = matches!(refusal.number, 25 | 26).then_some(refusal.place);
    (refusal.number, place, Counts::default(), None)
}

fn check(mail: &Mail, table: &[u8]) -> Shown {
    match evaluate(mail, table) {
        Answer::Decided(number, counts) => (number, None, counts, None),
        Answer::Wanting(question, counts) => wanting(question, counts),
        Answer::Refused(refusal) => refused(refusal),
        Answer::Fail(failing, counts) => match explain(mail, &failing, table) {
            Explanation::Text(text) => (FAIL, None, counts, Some(text)),
            Explanation::Wanting(question) => wanting(question, counts),
            Explanation::Refused(refusal) => refused(refusal),
        },
    }
}

fn main() -> std::io::Result<()> {
    let mut input = Vec::new();
    std::io::stdin().read_to_end(&mut input)?;
    let mut rest = &input[..];
    let client = take_line(&mut rest);
    let domain = take_line(&mut rest);
    let sender = take_line(&mut rest);
    let helo = take_line(&mut rest);
    let receiver = take_line(&mut rest);
    let t = take_line(&mut rest);
    let mut out = std::io::stdout().lock();
    let (Some(client), Some(seconds)) = (read_address(client), read_number(t)) else {
        return out.write_all(b"input\n");
    };
    let mail = Mail { client: &client, domain, sender, helo, receiver, seconds };
    let (number, place, Counts { lookups, voids, lifetime }, line) = check(&mail, rest);
    let place = place.map_or(".".to_string(), |n| n.to_string());
    writeln!(out, "{number} {place} {lookups} {voids} {lifetime}")?;
    if let Some(bytes) = line {
        out.write_all(&bytes)?;
        out.write_all(b"\n")?;
    }
    Ok(())
}
