//! Talavorn's calls for Rust: declarations of those that a check, its header line, the house rules
//! and old tables need, and a safe function over each. talavorn.h says what they do. A program says
//! `mod talavorn;`, has this file beside it, and links the static library. rustc 1.82 or later, any
//! edition.
#![allow(dead_code)] // a program uses what it needs

use std::ops::Range;

// Numbers of a check: SPF's results, and that an answer is missing. 20 and above are refusals.
pub const NONE: u8 = 0;
pub const NEUTRAL: u8 = 1;
pub const PASS: u8 = 2;
pub const FAIL: u8 = 3;
pub const SOFTFAIL: u8 = 4;
pub const TEMPERROR: u8 = 5;
pub const PERMERROR: u8 = 6;
pub const WANTING: u8 = 7;

// Kinds of entries: DNS types. Entries of type 99, SPF, may stand in a table too and are ignored.
pub const TYPE_A: u16 = 1;
pub const TYPE_PTR: u16 = 12;
pub const TYPE_MX: u16 = 15;
pub const TYPE_TXT: u16 = 16;
pub const TYPE_AAAA: u16 = 28;

// Statuses of entries: the RCODEs NOERROR, SERVFAIL (any other, or no reply, too) and NXDOMAIN.
pub const ANSWERED: u8 = 0;
pub const FAILED: u8 = 2;
pub const NO_SUCH_NAME: u8 = 3;

// The house rules in words, that of number n at n - 1.
pub const RULES: [&str; 10] = [
    "no ptr",
    "no p macro",
    "an all or a redirect, and no all after the first",
    "no redirect beside an all",
    "no mechanism after the first all",
    "nothing but redirect and exp after the first of these",
    "no +all, written or implied",
    "no length below /8 for IPv4 or /19 for IPv6",
    "no network equal to an earlier one",
    "name and text together under 450 bytes",
];

// A byte slice is a pointer and a length.
unsafe extern "C" {
    fn talavorn_evaluate(
        client: *const u8, client_len: usize,
        domain: *const u8, domain_len: usize,
        sender: *const u8, sender_len: usize,
        helo: *const u8, helo_len: usize,
        receiver: *const u8, receiver_len: usize,
        seconds: u64,
        table: *const u8, table_len: usize,
        name: *mut u8, name_len: usize,
        values: *mut [usize; 7],
    ) -> u8;
    fn talavorn_explain(
        client: *const u8, client_len: usize,
        domain: *const u8, domain_len: usize,
        sender: *const u8, sender_len: usize,
        helo: *const u8, helo_len: usize,
        receiver: *const u8, receiver_len: usize,
        seconds: u64,
        table: *const u8, table_len: usize,
        place: usize, size: usize,
        name: *mut u8, name_len: usize,
        text: *mut u8, text_len: usize,
        values: *mut [usize; 2],
    ) -> u8;
    fn talavorn_append_entry(
        kind: u16, status: u8, lifetime: u32,
        name: *const u8, name_len: usize,
        items: *const u8, items_len: usize,
        table: *mut u8, room: usize, size: *mut usize,
        place: *mut usize,
    ) -> u8;
    fn talavorn_add_lifetimes(
        old: *const u8, old_len: usize, new: *mut u8, room: usize, value: *mut usize,
    ) -> u8;
    fn talavorn_read_address(text: *const u8, text_len: usize, octets: *mut [u8; 16]) -> u8;
    fn talavorn_write_line(
        result: u8,
        client: *const u8, client_len: usize,
        sender: *const u8, sender_len: usize,
        helo: *const u8, helo_len: usize,
        receiver: *const u8, receiver_len: usize,
        identity: u8,
        out: *mut u8, out_len: usize,
        size: *mut usize,
    ) -> u8;
    fn talavorn_read_line(line: *const u8, line_len: usize, values: *mut [usize; 11]) -> u8;
    fn talavorn_unquote(
        part: *const u8, part_len: usize, out: *mut u8, out_len: usize, size: *mut usize,
    ) -> u8;
    fn talavorn_house_rules(
        domain: *const u8, domain_len: usize,
        record: *const u8, record_len: usize,
        list: *mut u8, list_len: usize,
        value: *mut usize,
    ) -> u8;
}

/// What an evaluation is given besides the table. For an empty MAIL FROM, and to check HELO, the
/// domain is the HELO name and the sender `postmaster@` and the HELO name.
pub struct Mail<'a> {
    /// 4 or 16 octets in network order.
    pub client: &'a [u8],
    pub domain: &'a [u8],
    pub sender: &'a [u8],
    pub helo: &'a [u8],
    pub receiver: &'a [u8],
    /// Since 1970; only macro t uses it.
    pub seconds: u64,
}

/// Lookups begun, 0 to 10, and void answers met, 0 to 3: those without items to the questions of a,
/// mx, ptr and exists, mx hosts' and ptr names' addresses included. The third gives `PERMERROR`.
/// With them the lifetime: for how many seconds the result may be kept, the smallest among the
/// entries that were consulted, or 0 if none was.
#[derive(Clone, Copy, Debug, Default, PartialEq)]
pub struct Counts {
    pub lookups: usize,
    pub voids: usize,
    pub lifetime: u32,
}

/// A question that has no entry in the table: ask the DNS, append an entry for this kind and name,
/// and call again.
#[derive(Clone, Debug, PartialEq)]
pub struct Question {
    /// The DNS type to ask.
    pub kind: u16,
    pub name: Vec<u8>,
}

/// Which record failed: what `explain` makes the text from.
#[derive(Clone, Debug, PartialEq)]
pub struct Failing {
    /// Its domain, as macro d shows it: lowered and without a trailing dot.
    pub domain: Vec<u8>,
    /// The place and the length of its exp argument in the table, 0 and 0 where it has no exp. They
    /// belong to that table: one that has grown at its end keeps every place.
    pub place: usize,
    pub size: usize,
}

/// What an evaluation answers.
#[derive(Clone, Debug, PartialEq)]
pub enum Answer {
    /// Every result but fail: `NONE`, `NEUTRAL`, `PASS`, `SOFTFAIL`, `TEMPERROR` or `PERMERROR`.
    Decided(u8, Counts),
    /// Fail. Its text, for a relay that sends one, is up to `explain`.
    Fail(Failing, Counts),
    /// The counts are those so far. No question is for the text of a fail.
    Wanting(Question, Counts),
    Refused(Refusal),
}

/// What an explanation answers. A refusal doesn't change the result, which is fail.
#[derive(Clone, Debug, PartialEq)]
pub enum Explanation {
    /// The text, 0 to 500 bytes, written by the domain's owner.
    Text(Vec<u8>),
    Wanting(Question),
    Refused(Refusal),
}

/// A refusal: its number, and the place, for 25 and 26 in the table, the old one where it is
/// rewritten, and for 30 to 33 in the record; otherwise 0.
#[derive(Clone, Debug, PartialEq)]
pub struct Refusal {
    pub number: u8,
    pub place: usize,
}

/// Which identity a Received-SPF line is about.
#[derive(Clone, Copy, Debug, PartialEq)]
pub enum Identity {
    MailFrom = 0,
    Helo = 1,
}

/// A Received-SPF line that was read: the result, and where the part of each value stands in the
/// line. `unquote` takes the backslashes out of a part.
#[derive(Clone, Debug, PartialEq)]
pub struct Line {
    pub result: u8,
    pub receiver: Range<usize>,
    pub client: Range<usize>,
    pub sender: Range<usize>,
    pub helo: Range<usize>,
    pub identity: Range<usize>,
}

/// A breach of the house rules: the rule's number, 1 to 10, and the first byte of the term; or the
/// record's length, where the end of rule 3 is missing and for rule 10.
#[derive(Clone, Copy, Debug, PartialEq)]
pub struct Breach {
    pub rule: u8,
    pub place: usize,
}

// Every slice is valid, a lent one overlaps nothing, and the library asks for nothing else: so the
// functions below are safe.

/// Evaluates a domain for a client over a table of DNS answers.
pub fn evaluate(mail: &Mail, table: &[u8]) -> Answer {
    let (mut name, mut values) = ([0; 253], [0; 7]);
    let number = unsafe {
        talavorn_evaluate(
            mail.client.as_ptr(), mail.client.len(),
            mail.domain.as_ptr(), mail.domain.len(),
            mail.sender.as_ptr(), mail.sender.len(),
            mail.helo.as_ptr(), mail.helo.len(),
            mail.receiver.as_ptr(), mail.receiver.len(),
            mail.seconds,
            table.as_ptr(), table.len(),
            name.as_mut_ptr(), name.len(),
            &mut values,
        )
    };
    let [first, lookups, voids, lifetime, length, place, size] = values;
    let counts = Counts { lookups, voids, lifetime: lifetime as u32 };
    let written = name[..length].to_vec();
    match number {
        FAIL => Answer::Fail(Failing { domain: written, place, size }, counts),
        NONE..=PERMERROR => Answer::Decided(number, counts),
        WANTING => Answer::Wanting(Question { kind: first as u16, name: written }, counts),
        _ => Answer::Refused(Refusal { number, place: first }),
    }
}

/// Makes the text of a fail over the table of the evaluation that failed, or one that has grown at
/// its end since. In one that has changed before the exp argument it is refused with 28: evaluate
/// again. Of the mail the domain isn't used: `failing` has the one that counts.
pub fn explain(mail: &Mail, failing: &Failing, table: &[u8]) -> Explanation {
    let (mut name, mut text, mut values) = ([0; 253], [0; 500], [0; 2]);
    let number = unsafe {
        talavorn_explain(
            mail.client.as_ptr(), mail.client.len(),
            failing.domain.as_ptr(), failing.domain.len(),
            mail.sender.as_ptr(), mail.sender.len(),
            mail.helo.as_ptr(), mail.helo.len(),
            mail.receiver.as_ptr(), mail.receiver.len(),
            mail.seconds,
            table.as_ptr(), table.len(),
            failing.place, failing.size,
            name.as_mut_ptr(), name.len(),
            text.as_mut_ptr(), text.len(),
            &mut values,
        )
    };
    let [first, length] = values;
    match number {
        FAIL => Explanation::Text(text[..length].to_vec()),
        WANTING => {
            Explanation::Wanting(Question { kind: first as u16, name: name[..length].to_vec() })
        }
        _ => Explanation::Refused(Refusal { number, place: first }),
    }
}

/// Appends an entry to the table in the first `size` bytes of a buffer, and moves `size` on.
///
/// `lifetime` is for how many seconds the answer holds: the smallest TTL among the reply's records,
/// followed CNAMEs' included; 0 where that isn't known. `name` is the name that was asked. `items`
/// has an item for each record of the asked type, in the reply's order: a 2-byte length, and then
/// - A: 4 octets; AAAA: 16 octets;
/// - PTR: a name;
/// - MX: a 2-byte preference and a name, or no name where the host is the root;
/// - TXT: the record's strings joined with nothing between, at most 4,096 bytes.
///
/// The lengths and the preference are little-endian. Names in items are in lower case and without a
/// trailing dot, labels of 1 to 63 bytes of 33 to 126, at most 253 bytes in all. `FAILED` and
/// `NO_SUCH_NAME` have no items. A refusal of 65 says that a rule is broken or the room too small:
/// append the answer as `FAILED` and without items; if that is refused with 65, too, the table is
/// full, or kind or name breaks a rule.
pub fn append_entry(
    kind: u16, status: u8, lifetime: u32, name: &[u8], items: &[u8], table: &mut [u8],
    size: &mut usize,
) -> Result<(), Refusal> {
    let mut place = 0;
    let number = unsafe {
        talavorn_append_entry(
            kind, status, lifetime,
            name.as_ptr(), name.len(),
            items.as_ptr(), items.len(),
            table.as_mut_ptr(), table.len(), size,
            &mut place,
        )
    };
    if number == 0 { Ok(()) } else { Err(Refusal { number, place }) }
}

/// Rewrites a table of the layout before W-209, whose entries have no lifetime: the new table, with
/// a lifetime of 0 in each entry. Refused are 24, the old table or the new one over 65,535 bytes,
/// and 25 and 26 with the place in the old table.
pub fn add_lifetimes(old: &[u8]) -> Result<Vec<u8>, Refusal> {
    let (mut new, mut value) = (vec![0; 65535], 0);
    let number = unsafe {
        talavorn_add_lifetimes(
            old.as_ptr(), old.len(), new.as_mut_ptr(), new.len(), &mut value,
        )
    };
    if number != 0 {
        return Err(Refusal { number, place: value });
    }
    new.truncate(value);
    Ok(new)
}

/// The octets of a written address; none for any other text.
pub fn read_address(text: &[u8]) -> Option<Vec<u8>> {
    let mut octets = [0u8; 16];
    let n = unsafe { talavorn_read_address(text.as_ptr(), text.len(), &mut octets) };
    if n == 0 { None } else { Some(octets[..n as usize].to_vec()) }
}

/// The Received-SPF line of a result, 0 to 6, for a mail that was checked, with CR LF at its end; or
/// the number of a refusal: 90, 20, 21, 52, 50. Of the mail the domain and the seconds aren't used.
pub fn write_line(result: u8, mail: &Mail, identity: Identity) -> Result<Vec<u8>, u8> {
    let (mut out, mut size) = ([0; 1500], 0);
    let number = unsafe {
        talavorn_write_line(
            result,
            mail.client.as_ptr(), mail.client.len(),
            mail.sender.as_ptr(), mail.sender.len(),
            mail.helo.as_ptr(), mail.helo.len(),
            mail.receiver.as_ptr(), mail.receiver.len(),
            identity as u8,
            out.as_mut_ptr(), out.len(),
            &mut size,
        )
    };
    if number == 0 { Ok(out[..size].to_vec()) } else { Err(number) }
}

/// Reads a Received-SPF line, CR LF included, that `write_line` gives; none for any other.
pub fn read_line(line: &[u8]) -> Option<Line> {
    let mut values = [0; 11];
    let number = unsafe { talavorn_read_line(line.as_ptr(), line.len(), &mut values) };
    let [result, a, b, c, d, e, f, g, h, i, j] = values;
    (number == 0).then(|| Line {
        result: result as u8,
        receiver: a..b,
        client: c..d,
        sender: e..f,
        helo: g..h,
        identity: i..j,
    })
}

/// The value of a part of a Received-SPF line; none for bytes that no line has as a part.
pub fn unquote(part: &[u8]) -> Option<Vec<u8>> {
    let (mut out, mut size) = ([0; 320], 0);
    let number = unsafe {
        talavorn_unquote(part.as_ptr(), part.len(), out.as_mut_ptr(), out.len(), &mut size)
    };
    (number == 0).then(|| out[..size].to_vec())
}

/// Holds a record with its domain name against the house rules: all breaches, by rule and then by
/// place, none for a record that may be published. Refused are 22, 30 to 33, and 70, over 256
/// breaches.
pub fn house_rules(domain: &[u8], record: &[u8]) -> Result<Vec<Breach>, Refusal> {
    let (mut list, mut value) = ([0; 768], 0);
    let number = unsafe {
        talavorn_house_rules(
            domain.as_ptr(), domain.len(),
            record.as_ptr(), record.len(),
            list.as_mut_ptr(), list.len(),
            &mut value,
        )
    };
    if number != 0 {
        return Err(Refusal { number, place: value });
    }
    let place = |b: &[u8]| usize::from(b[1]) + 256 * usize::from(b[2]);
    let listed = list[..3 * value].chunks_exact(3);
    Ok(listed.map(|b| Breach { rule: b[0], place: place(b) }).collect())
}

#[cfg(test)]
mod tests {
    use super::*;

    const MAIL: Mail = Mail {
        client: &[192, 0, 2, 129],
        domain: b"example.com",
        sender: b"user@example.com",
        helo: b"h.example",
        receiver: b"",
        seconds: 7,
    };

    const NO_COUNTS: Counts = Counts { lookups: 0, voids: 0, lifetime: 0 };
    const AN_HOUR: Counts = Counts { lifetime: 3600, ..NO_COUNTS };
    const EXPLAINED: &[u8] =
        b"\x2e\0\x10\0\0\x10\x0e\0\0\x0bexample.com\x19\0v=spf1 -all exp=e.example";

    fn question(name: &[u8]) -> Question {
        Question { kind: TYPE_TXT, name: name.to_vec() }
    }

    fn failing(domain: &[u8], place: usize, size: usize) -> Failing {
        Failing { domain: domain.to_vec(), place, size }
    }

    fn refused(number: u8, place: usize) -> Refusal {
        Refusal { number, place }
    }

    #[test]
    fn an_answer_is_added_and_found() {
        let (mut table, mut size) = ([0xeeu8; 44], 0);
        let a = evaluate(&MAIL, &table[..size]);
        assert_eq!(a, Answer::Wanting(question(b"example.com"), NO_COUNTS));
        let Answer::Wanting(q, _) = a else { return };
        let record = b"\x0b\0v=spf1 -all";
        let added = append_entry(q.kind, ANSWERED, 3600, &q.name, record, &mut table, &mut size);
        assert_eq!((added, size), (Ok(()), 34));
        let entry = b"\x20\0\x10\0\0\x10\x0e\0\0\x0bexample.com\x0b\0v=spf1 -all";
        assert_eq!(&table[..34], entry);
        assert_eq!(&table[34..], [0xee; 10]);
        let a = evaluate(&MAIL, &table[..size]);
        assert_eq!(a, Answer::Fail(failing(b"example.com", 0, 0), AN_HOUR));
    }

    #[test]
    fn each_result_has_its_case() {
        let decided = |number, lookups, voids, lifetime| {
            Answer::Decided(number, Counts { lookups, voids, lifetime })
        };
        let pass: &[u8] = b"\x20\0\x10\0\0\xff\xff\xff\xff\x0bexample.com\x0b\0v=spf1 +all";
        assert_eq!(evaluate(&MAIL, pass), decided(PASS, 0, 0, u32::MAX));
        let void = b"\x20\0\x10\0\0\x10\x0e\0\0\x0bexample.com\x0b\0v=spf1 a ~a\
            \x13\0\x01\0\x03\x3c\0\0\0\x0bexample.com";
        assert_eq!(evaluate(&MAIL, void), decided(NEUTRAL, 2, 2, 60));
        assert_eq!(evaluate(&Mail { domain: b"com", ..MAIL }, b""), decided(NONE, 0, 0, 0));
        let twice = [pass, pass].concat();
        assert_eq!(evaluate(&MAIL, &twice), Answer::Refused(refused(26, 34)));
        assert_eq!(evaluate(&Mail { client: &[], ..MAIL }, b""), Answer::Refused(refused(90, 0)));
    }

    #[test]
    fn a_fail_is_explained() {
        let f = failing(b"example.com", 39, 9);
        assert_eq!(evaluate(&MAIL, EXPLAINED), Answer::Fail(f.clone(), AN_HOUR));
        assert_eq!(explain(&MAIL, &f, EXPLAINED), Explanation::Wanting(question(b"e.example")));
        let text = b"\x25\0\x10\0\0\x07\0\0\0\x09e.example\x12\0%{d} sends no %{l}";
        let table = [EXPLAINED, text].concat();
        let sends_no_user = Explanation::Text(b"example.com sends no user".to_vec());
        assert_eq!(explain(&Mail { domain: b"", ..MAIL }, &f, &table), sends_no_user);
        let none = failing(b"example.com", 0, 0);
        assert_eq!(explain(&MAIL, &none, &table), Explanation::Text(Vec::new()));
    }

    #[test]
    fn an_explanation_is_refused() {
        let explained = |f: &Failing, table: &[u8]| explain(&MAIL, f, table);
        let f = failing(b"example.com", 39, 9);
        let twice = [EXPLAINED, EXPLAINED].concat();
        assert_eq!(explained(&f, &twice), Explanation::Refused(refused(26, 48)));
        assert_eq!(explained(&f, b""), Explanation::Refused(refused(28, 0)));
        let moved = [b"\x09\0\x01\0\x03\0\0\0\0\x01a", EXPLAINED].concat();
        assert_eq!(explained(&f, &moved), Explanation::Refused(refused(28, 0)));
        let long = failing(&[b'x'; 256], 0, 0);
        assert_eq!(explained(&long, EXPLAINED), Explanation::Refused(refused(22, 0)));
    }

    #[test]
    fn a_refusal_changes_nothing() {
        let first = *b"\x13\0\x10\0\x03\0\0\0\0\x0bexample.com\0\0\0\0\0\0\0\0\0\0\0\0";
        let (mut table, mut size) = (first, 21);
        let mut refused = |kind, status, name: &[u8], size: &mut usize| {
            append_entry(kind, status, 7, name, b"", &mut table, size).unwrap_err()
        };
        assert_eq!(refused(16, 0, b"EXAMPLE.com", &mut size), Refusal { number: 64, place: 0 });
        assert_eq!(refused(2, 0, b"a", &mut size), Refusal { number: 65, place: 0 });
        assert_eq!(refused(1, 0, b"a.bc", &mut size), Refusal { number: 65, place: 0 });
        assert_eq!(refused(1, 0, b"a", &mut 22), Refusal { number: 25, place: 21 });
        assert_eq!(refused(1, 0, b"a", &mut 34), Refusal { number: 24, place: 0 });
        assert_eq!((table, size), (first, 21));
    }

    #[test]
    fn an_old_table_is_rewritten() {
        let old = b"\x05\0\x01\0\0\x01a";
        assert_eq!(add_lifetimes(b""), Ok(Vec::new()));
        assert_eq!(add_lifetimes(old), Ok(b"\x09\0\x01\0\0\0\0\0\0\x01a".to_vec()));
        assert_eq!(add_lifetimes(&old.repeat(2)), Err(refused(26, 7)));
        assert_eq!(add_lifetimes(&[old, &b"\n"[..]].concat()), Err(refused(25, 7)));
        assert_eq!(add_lifetimes(&[0; 65535]), Err(refused(25, 0)));
        assert_eq!(add_lifetimes(&[0; 65536]), Err(refused(24, 0)));
        // one entry of 16 texts: 65,531 bytes grow to 65,535
        let of = |n: usize| {
            let texts = [&b"\0\x10"[..], &[b'x'; 4096]].concat().repeat(15);
            let last = [&((n - 61479) as u16).to_le_bytes()[..], &vec![b'x'; n - 61479]].concat();
            [&((n - 2) as u16).to_le_bytes()[..], b"\x10\0\0\x01a", &texts, &last].concat()
        };
        assert_eq!(add_lifetimes(&of(65531)).map(|new| new.len()), Ok(65535));
        assert_eq!(add_lifetimes(&of(65532)), Err(refused(24, 0)));
    }

    #[test]
    fn a_line_is_written_and_read_back() {
        let mail = Mail { sender: b"a\"b\\c@x.y", ..MAIL };
        let line = write_line(PASS, &mail, Identity::MailFrom).unwrap();
        let expected = b"Received-SPF: pass receiver=\"\"; client-ip=192.0.2.129; \
            envelope-from=\"a\\\"b\\\\c@x.y\"; helo=h.example; identity=mailfrom\r\n";
        assert_eq!(line, expected);
        let read = read_line(&line).unwrap();
        assert_eq!((read.result, read.receiver.clone()), (PASS, 29..29));
        let value = |part: &Range<usize>| unquote(&line[part.clone()]);
        assert_eq!(value(&read.receiver), Some(Vec::new()));
        assert_eq!(value(&read.client), Some(b"192.0.2.129".to_vec()));
        assert_eq!(value(&read.sender), Some(b"a\"b\\c@x.y".to_vec()));
        assert_eq!(value(&read.helo), Some(b"h.example".to_vec()));
        assert_eq!(value(&read.identity), Some(b"mailfrom".to_vec()));
    }

    #[test]
    fn a_line_is_refused() {
        let written = |result, mail: &Mail| write_line(result, mail, Identity::Helo);
        assert_eq!(written(PASS, &Mail { client: &[], ..MAIL }), Err(90));
        assert_eq!(written(WANTING, &Mail { sender: b"", helo: b"a b", ..MAIL }), Err(20));
        assert_eq!(written(WANTING, &Mail { helo: b"a b", ..MAIL }), Err(21));
        assert_eq!(written(WANTING, &MAIL), Err(52));
        let (long, host) = ([b'"'; 320], [b'"'; 255]);
        assert_eq!(written(FAIL, &Mail { sender: &long, helo: &host, receiver: &host, ..MAIL }), Err(50));
        assert_eq!(read_line(b"Received-SPF: pass\r\n"), None);
        assert_eq!((unquote(b"\\a"), unquote(b"a b")), (None, Some(b"a b".to_vec())));
    }

    fn breaches(domain: &[u8], record: &[u8]) -> Vec<(u8, usize)> {
        house_rules(domain, record).unwrap().iter().map(|b| (b.rule, b.place)).collect()
    }

    #[test]
    fn breaches_are_listed() {
        let listed = |record: &[u8]| breaches(b"example.com", record);
        assert_eq!(listed(b"v=spf1 -all"), []);
        assert_eq!(listed(b"v=spf1 -all ~all"), [(3, 12), (5, 12)]);
        assert_eq!(listed(b"v=spf1 redirect=a.b -all"), [(4, 7), (6, 20)]);
        assert_eq!(listed(b"v=spf1 a/7//18 ptr:%{p}"), [(1, 15), (2, 15), (3, 23), (8, 7)]);
        let long = [b"v=spf1 -all", &[b' '; 427][..]].concat();
        assert_eq!(breaches(b"example.com.", &long), [(10, 438)]);
        assert_eq!(breaches(b"example.com.", &long[..437]), []);
        assert_eq!(RULES[10 - 1], "name and text together under 450 bytes");
    }

    #[test]
    fn a_record_is_refused() {
        let held = |domain: &[u8], record: &[u8]| house_rules(domain, record).unwrap_err();
        assert_eq!(held(&[b'y'; 256], &[b'y'; 4097]), refused(22, 0));
        assert_eq!(held(&[b'y'; 255], &[b'y'; 4097]), refused(30, 0));
        assert_eq!(held(b"a", b"spf2.0/mfrom -all"), refused(31, 0));
        assert_eq!(held(b"a", b"v=spf1 ptr ip4:1.2.3.4/33"), refused(32, 24));
        assert_eq!(held(b"a", b"v=spf1 exp=a.b exp=a.b"), refused(33, 15));
        // a breach for each ptr, for the missing end and for the length
        let most = [&b"v=spf1"[..], &b" ptr".repeat(254)].concat();
        assert_eq!(breaches(b"a", &most).len(), 256);
        assert_eq!(held(b"a", &[&most[..], b" ptr"].concat()), refused(70, 0));
    }
}
