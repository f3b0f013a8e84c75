// Writes a Received-SPF line or reads one back, through talavorn.rs: reads a result's word, the
// client, the sender, the HELO name, the receiver and the identity from standard input, a line
// each, and prints the line, or `refused` and a number; `input` where it cannot read one of them.
// An input that begins with `Received-SPF:` is read back to these six lines, or is refused. What it
// prints is what the proved program received_line prints.
mod talavorn;

use std::io::{Read, Write};
use talavorn::{read_address, read_line, unquote, write_line, Identity, Mail};

const MOST_INPUT: usize = 4096;
const INPUT: &[u8] = b"input\n";
const WORDS: [&str; 7] =
    ["none", "neutral", "pass", "fail", "softfail", "temperror", "permerror"];

fn refused(number: u8) -> Vec<u8> {
    format!("refused {number}\n").into_bytes()
}

// The line of six lines; none where one of them can't be read or anything follows.
fn written(input: &[u8]) -> Option<Vec<u8>> {
    let mut lines = input.split(|b| *b == b'\n').collect::<Vec<_>>();
    if lines.len() == 7 && lines[6].is_empty() {
        lines.pop();
    }
    let [word, client, sender, helo, receiver, identity] = lines[..] else { return None };
    let result = WORDS.iter().position(|w| w.as_bytes() == word)?;
    let client = read_address(client)?;
    let identity = match identity {
        b"mailfrom" => Identity::MailFrom,
        b"helo" => Identity::Helo,
        _ => return None,
    };
    let mail = Mail { client: &client, domain: b"", sender, helo, receiver, seconds: 0 };
    Some(write_line(result as u8, &mail, identity).unwrap_or_else(refused))
}

// The six lines of a line; none where it is refused.
fn read_back(line: &[u8]) -> Option<Vec<u8>> {
    let read = read_line(line)?;
    let mut out = WORDS[usize::from(read.result)].as_bytes().to_vec();
    for part in [read.client, read.sender, read.helo, read.receiver, read.identity] {
        out.push(b'\n');
        out.extend(unquote(&line[part])?);
    }
    out.push(b'\n');
    Some(out)
}

fn main() -> std::io::Result<()> {
    let mut input = Vec::new();
    std::io::stdin().read_to_end(&mut input)?;
    let printed = if input.starts_with(b"Received-SPF:") {
        read_back(&input).unwrap_or_else(|| refused(51))
    } else if MOST_INPUT < input.len() {
        INPUT.to_vec()
    } else {
        written(&input).unwrap_or_else(|| INPUT.to_vec())
    };
    std::io::stdout().write_all(&printed)
}
