#!/usr/bin/env python3
"""The cases of the program received_cases: the vectors for the three calls of the Received-SPF line, the inputs of the readings of the change request W-202
(R1 to R15), and inputs of the program received_line.

    python3 tools/line_cases.py PATH/vectors-02

reads write-w202.txt, read-w202.txt and unquote-w202.txt there, and writes crates/received_cases/stdin, the calls, and crates/received_cases/stdout, what the
program must print. The answers to the vectors are the vectors' own. Those to the other inputs stand beside them here, written by hand from the change request
and the readings; where there are many of a kind, they follow from `form_of`, `line_of` and `places`, which say the change request's sentences once more. None
was taken from what a program printed. The gate doesn't run this script.

A form is a value as it stands in the line, quotes and backslashes included; a part is the form without its quotes. Unless said otherwise: result 2, receiver
mx.example, client 192.0.2.1, sender user@example.com, HELO mail.example, identity mailfrom, and a buffer of 1,500 bytes to write, of 320 to unquote.
"""

import itertools
import pathlib
import string
import sys

sys.dont_write_bytecode = True

from scope_cases import need, packed, store

CRATE = pathlib.Path(__file__).resolve().parent.parent / "crates" / "received_cases"

# The number of vectors and of arguments of each call.
VECTORS = {"write": (800, 7), "read": (800, 1), "unquote": (500, 2)}

# The lengths of the program's buffers: for a case, a value or part, a line or input, and the one whose front it lends.
CASE, VALUE, TEXT, LENT = 10000, 1024, 4097, 5000

WORDS = ("none", "neutral", "pass", "fail", "softfail", "temperror", "permerror")
IDENTITIES = ("mailfrom", "helo")
KEYS = ("receiver", "client-ip", "envelope-from", "helo", "identity")
ATOM_BYTES = string.ascii_letters + string.digits + "!#$%&'*+-/=?^_`{|}~"
HOST_BYTES = [chr(byte) for byte in range(33, 127)]

# Each value and its form.
USUAL = {
    "receiver": ("mx.example", "mx.example"),
    "client": ("192.0.2.1", "192.0.2.1"),
    "sender": ("user@example.com", '"user@example.com"'),
    "helo": ("mail.example", "mail.example"),
    "identity": ("mailfrom", "mailfrom"),
}

# The line of these.
EXAMPLE = (
    "Received-SPF: pass receiver=mx.example; client-ip=192.0.2.1; "
    'envelope-from="user@example.com"; helo=mail.example; identity=mailfrom\r\n'
)

# A client whose form has the most bytes.
WIDE = "ffff:ffff:ffff:ffff:ffff:ffff:ffff:ffff"

given, printed = [], []


def heading(text):
    given.append("# " + text)
    printed.append("# " + text)


def case(arguments, expected):
    """A call, its name and arguments, and the answer."""
    call, *words = [str(argument) for argument in arguments]
    whole = call in ("read", "print")
    need(all(len(word) <= 2 * (TEXT if whole else VALUE) for word in words), "an argument is too long")
    need(whole or int(words[-1]) < LENT, "a lent buffer is too long")
    given.append(" ".join([call, *words]))
    printed.append(expected)


def hexed(text):
    """A text in hex, a byte for each character."""
    return text.encode("latin-1").hex() or "-"


def vectors(path, call):
    """The vectors of a call."""
    count, words = VECTORS[call]
    lines = path.read_text(encoding="ascii").splitlines()
    need(len(lines) == count, "not", count, "vectors in", path.name)
    heading(path.name)
    for line in lines:
        arguments, expected = line.split(" => ")
        name, *rest = arguments.split(" ")
        need(name == call and len(rest) == words, "no vector:", line[:80])
        case([name, *rest], expected)


# The line, from the change request.


def form_of(value):
    """dot-atom-text as it is; any other value quoted, with a backslash before quotes and backslashes."""
    if all(atom and set(atom) <= set(ATOM_BYTES) for atom in value.split(".")):
        return value
    return '"' + value.replace("\\", "\\\\").replace('"', '\\"') + '"'


def part_of(form):
    return form[1:-1] if form.startswith('"') else form


def shown(forms):
    """The five forms in their order, the usual ones where none is given."""
    return ({name: form for name, (_, form) in USUAL.items()} | forms).values()


def line_of(word="pass", end="\r\n", **forms):
    return f"Received-SPF: {word} " + "; ".join(map("=".join, zip(KEYS, shown(forms)))) + end


def places(word="pass", **forms):
    """Where the parts of these forms begin and end in their line."""
    at = len(f"Received-SPF: {word} ")
    for key, form in zip(KEYS, shown(forms)):
        begin, quote = at + len(key + "="), form.startswith('"')
        end = begin + len(form)
        yield from (begin + quote, end - quote)
        at = end + len("; ")


# The calls.


def answer(expected):
    """The number of a refusal, or a text that is written."""
    return f"refused {expected}" if isinstance(expected, int) else "ok " + hexed(expected)


def write(expected, result=2, room=1500, **values):
    value = {name: usual for name, (usual, _) in USUAL.items()} | values
    texts = [hexed(value[name]) for name in ("sender", "helo", "receiver")]
    case(["write", result, packed(value["client"]), *texts, IDENTITIES.index(value["identity"]), room], answer(expected))


def read(result=2, **forms):
    """The line of these forms, which is read to the result and their places."""
    word = WORDS[result]
    case(["read", hexed(line_of(word, **forms))], " ".join(map(str, ["ok", result, *places(word, **forms)])))


def no_line(*lines):
    for line in lines:
        case(["read", hexed(line)], "refused 51")


def no_form(name, *forms):
    for form in forms:
        no_line(line_of(**{name: form}))


def unquote(expected, part, room=320):
    case(["unquote", hexed(part), room], answer(expected))


def parted(pairs):
    """The values and the forms of pairs."""
    return ({name: pair[k] for name, pair in pairs.items()} for k in (0, 1))


def there_and_back(result=2, **pairs):
    """Pairs of a value and its form: the line written, its places read, and the values of its parts."""
    values, forms = parted(pairs)
    write(line_of(WORDS[result], **forms), result, **values)
    read(result, **forms)
    for name in ("receiver", "sender", "helo"):
        if name in pairs:
            unquote(values[name], part_of(forms[name]), len(values[name]))


# The inputs of the readings.


def value_cases():
    heading("The example")
    need(line_of() == EXAMPLE and len(EXAMPLE) == 133, "another example")
    there_and_back()

    heading("R1, R2: the values as they are given; an empty one is quoted")
    there_and_back(receiver=("", '""'))
    there_and_back(sender=("@x.y", '"@x.y"'))
    there_and_back(helo=("", '""'))
    there_and_back(receiver=("", '""'), helo=("", '""'))
    there_and_back(sender=("x.y", "x.y"))
    there_and_back(sender=("User@Example.COM", '"User@Example.COM"'), helo=("MAIL.Example", "MAIL.Example"), receiver=("MX.example.", '"MX.example."'))

    heading("R3: the client as macro c writes it")
    there_and_back(client=("2001:db8::1", '"2001:db8:0:0:0:0:0:1"'))
    there_and_back(client=("::ffff:192.0.2.1", "192.0.2.1"))
    there_and_back(client=("::ffff:0.0.0.0", "0.0.0.0"))
    there_and_back(client=("255.255.255.255", "255.255.255.255"))
    there_and_back(client=("10.200.0.99", "10.200.0.99"))
    there_and_back(client=("::", '"0:0:0:0:0:0:0:0"'))
    there_and_back(client=("::192.0.2.1", '"0:0:0:0:0:0:c000:201"'))
    there_and_back(client=("::fffe:c000:201", '"0:0:0:0:0:fffe:c000:201"'))
    there_and_back(client=("1::ffff:c000:201", '"1:0:0:0:0:ffff:c000:201"'))
    there_and_back(client=("::ffff:0:c000:201", '"0:0:0:0:ffff:0:c000:201"'))
    there_and_back(client=("ABCD:EF01:20:300:4000::F", '"abcd:ef01:20:300:4000:0:0:f"'))
    there_and_back(client=(WIDE, f'"{WIDE}"'))

    heading("R8: the two identities")
    for identity in IDENTITIES:
        there_and_back(identity=(identity, identity))


def quoting_cases():
    heading("R4: what is quoted")
    for name in ("receiver", "sender", "helo"):
        for value in ("a..b", ".a", "a.", ".", "..", "a@b", "[192.0.2.1]", "a;b", "a,b", "(a)", "<a>", "a:b"):
            there_and_back(**{name: (value, f'"{value}"')})
        for value in ("a=b", "a/b", "%{d}", "a", "a.b", "a.b.c", "0", ATOM_BYTES, "=", "identity=mailfrom", "unknown"):
            there_and_back(**{name: (value, value)})
    for value in ("a b", " ", " a", "a ", "a; helo=b; identity=helo", "pass receiver=a; client-ip=b"):
        there_and_back(sender=(value, f'"{value}"'))

    heading("R5: a backslash before quotes and backslashes only")
    for name in ("receiver", "sender", "helo"):
        there_and_back(**{name: ('"', r'"\""')})
        there_and_back(**{name: ("\\", r'"\\"')})
        there_and_back(**{name: ('a"b', r'"a\"b"')})
        there_and_back(**{name: (r"a\b", r'"a\\b"')})
        there_and_back(**{name: (r"\"", r'"\\\""')})
        there_and_back(**{name: (r"\\", r'"\\\\"')})
        there_and_back(**{name: ('""', r'"\"\""')})
        there_and_back(**{name: (r"a\;b@c", r'"a\\;b@c"')})
        there_and_back(**{name: ('";', r'"\";"')})
    there_and_back(sender=('"a b"@x.y', r'"\"a b\"@x.y"'))
    there_and_back(sender=(r'a"; helo="b\"; identity=helo', r'"a\"; helo=\"b\\\"; identity=helo"'))

    heading("R4, R5: every byte, alone in the sender and between two letters in the HELO name")
    there_and_back(sender=(" ", '" "'))
    for byte in HOST_BYTES:
        there_and_back(sender=(byte, form_of(byte)))
        there_and_back(helo=(f"a{byte}b", form_of(f"a{byte}b")))


def lines_of_length(length):
    """Results and pairs whose lines have this length."""
    quotes = {n: (n * '"', '"' + n * r"\"" + '"') for n in (255, 320)}
    more = length - 1500
    receiver, helo, rest = ((n + more) * "y" for n in (253, 220, 1))
    sender = (190 * '"' + rest, '"' + 190 * r"\"" + rest + '"')
    for result, pairs in (
        (2, {"receiver": (receiver, receiver), "sender": quotes[320], "helo": quotes[255]}),
        (6, {"receiver": quotes[255], "client": (WIDE, f'"{WIDE}"'), "sender": quotes[320], "helo": (helo, helo), "identity": ("helo", "helo")}),
        (2, {"receiver": quotes[255], "sender": sender, "helo": quotes[255]}),
    ):
        _, forms = parted(pairs)
        need(len(line_of(WORDS[result], **forms)) == length, "not", length, "bytes")
        yield result, pairs


def length_cases():
    heading("R6, R14: a line has at most 1,500 bytes, CRLF included; a longer one is read as 51")
    for length in (1499, 1500):
        for result, pairs in lines_of_length(length):
            there_and_back(result, **pairs)
    for length in (1501, 1502):
        for result, pairs in lines_of_length(length):
            values, forms = parted(pairs)
            for room in (1499, 1500, 1501, 1502, 4096):
                write(50, result, room, **values)
            no_line(line_of(WORDS[result], **forms))
    no_line(EXAMPLE + 3964 * "y", EXAMPLE[:-2] + 1400 * " " + "\r\n")

    heading("R6: with all bytes quotes a line would have 1,796 bytes")
    values = {"client": WIDE, "sender": 320 * '"', "helo": 255 * '"', "receiver": 255 * '"'}
    line = line_of("permerror", **{name: form_of(value) for name, value in values.items()})
    need(len(line) == 1796, "not 1,796 bytes")
    for room in (0, 1499, 1500, 1795, 1796, 4096):
        write(50, 6, room, **values)
    no_line(line)

    heading("R6: a buffer of the line's length is enough")
    for room in (133, 134, 1499, 1501, 4096):
        write(EXAMPLE, room=room)
    for room in (132, 131, 2, 1, 0):
        write(50, room=room)
    for result, pairs in lines_of_length(1500):
        values, forms = parted(pairs)
        for room in (1501, 4096):
            write(line_of(WORDS[result], **forms), result, room, **values)
        for room in (1499, 1498, 0):
            write(50, result, room, **values)


def refusal_cases():
    heading("R7: 20, 21, 52, 50")
    faults = {20: {"sender": ""}, 21: {"helo": "a b"}, 52: {"result": 7}, 50: {"room": 0}}
    for count in range(1, 5):
        for numbers in itertools.combinations(faults, count):
            arguments = itertools.chain.from_iterable(faults[number].items() for number in numbers)
            write(numbers[0], **dict(arguments))

    heading("R7: each result's word; 7 to 255 are 52")
    for result, word in enumerate(WORDS):
        write(EXAMPLE.replace("pass", word), result)
        read(result)
    for result in range(7, 256):
        write(52, result)

    heading("R7: both sides of the limits of 20 and 21")
    controls = ["a" + chr(byte) + "b" for byte in (0, 9, 10, 13, 31, 127, 128, 160, 255)]
    for sender in ("", 321 * "y", 321 * '"', 1000 * "y", *controls):
        write(20, sender=sender)
    for sender in (320 * "y", 320 * "@", 320 * "\\", 320 * " ", " ", "~"):
        there_and_back(sender=(sender, form_of(sender)))
    for name in ("helo", "receiver"):
        for value in (256 * "y", 256 * '"', 1000 * "y", "a b", " ", *controls):
            write(21, **{name: value})
        for value in (255 * "y", 255 * "@", 255 * "\\", "!", "~"):
            there_and_back(**{name: (value, form_of(value))})


def form_cases():
    heading("R9: the form of a value, and its limits")
    no_form("receiver", '"mx.example"', '"a b"', "", "a b", '"', "a..b", '"a..b', 'a..b"', 'a"b', '"a"b"', '""""', '"a;b";')
    no_form("receiver", r'"a\b"', r'"a\"', r'"a\\\"', r"a\b", *(form_of(256 * byte) for byte in 'y@"'))
    no_form("sender", "user@example.com", '""', "", '"user"', r'"a\@b"', r'"a\ b"', '"a\tb"', '"a@b', 'a@b"', '"a@b" ', ' "a@b"', "<a@b>", '"a@b" x')
    no_form("sender", *(form_of(321 * byte) for byte in 'y@"'))
    no_form("helo", '"mail.example"', "", '"a b"', '" "', "mail.example ", " mail.example", *(form_of(256 * byte) for byte in 'y@"'))
    for byte in 'y@"':
        read(sender=form_of(320 * byte))
        read(helo=form_of(255 * byte), receiver=form_of(255 * byte))

    heading("R9: every byte as a receiver, as it is and in quotes")
    for byte in map(chr, range(256)):
        for form in (byte, f'"{byte}"'):
            if byte in HOST_BYTES and form == form_of(byte):
                read(receiver=form)
            else:
                no_form("receiver", form)

    heading("R9: the form of the client")
    no_form("client", "192.0.2.01", '"2001:db8::1"', '"2001:DB8:0:0:0:0:0:1"', '"2001:dB8:0:0:0:0:0:1"', '"0:0:0:0:0:ffff:c000:201"', '"192.0.2.1"')
    no_form("client", "", '""', "192.0.2", "192.0.2.1.1", "192.0.2.1.", ".192.0.2.1", "192.0..1", "192.0.2.256", "192.0.2.1000", "0192.0.2.1", "192.0.2.1/32")
    no_form("client", "2001:db8:0:0:0:0:0:1", '"::"', '"::1"', '"2001:db8:0:0:0:0:0:01"', '"2001:0db8:0:0:0:0:0:1"', '"2001:db8:0:0:0:0:0"')
    no_form("client", '"2001:db8:0:0:0:0:0:1:0"', '"2001:db8:0:0:0:0:0:"', '"2001:db8:0:0:0:0:0:g"', '"2001:db8:0:0:0:0:0:10000"')
    no_form("client", '"2001:db8:0:0:0:0:192.0.2.1"', '"0:0:0:0:0:ffff:0:0"', '"0:0:0:0:0:ffff:192.0.2.1"', '"[2001:db8:0:0:0:0:0:1]"', "unknown")
    read(client='"0:0:0:0:0:fffe:c000:201"')
    read(client='"0:0:0:0:0:0:c000:201"')

    heading("R8, R9: the form of the identity, and the result's word")
    no_form("identity", "", '""', '"mailfrom"', '"helo"', "Mailfrom", "HELO", "mail", "mailfro", "mailfromm", "mfrom", "pra", "ehlo", "helo ", " helo")
    no_form("word", "Pass", "PASS", "", "pas", "passs", "pass ", " pass", "wanting", "hardfail", "soft-fail", "Neutral", "unknown", "error", "2", '"pass"')


def with_pairs(pairs):
    return "Received-SPF: pass " + "; ".join(pairs) + "\r\n"


def line_cases():
    heading("R9: no line that writing gives")
    for name in ("received-spf: ", "RECEIVED-SPF: ", "Received-Spf: ", "Received-SPF:", "Received-SPF:  ", "Received-SPF:\t", "Received-SPF : ", ""):
        no_line(EXAMPLE.replace("Received-SPF: ", name))
    for joint in (" (a comment) ", " () ", "\r\n ", " \r\n ", "\r\n\t", "\t", "  ", "", "; "):
        no_line(EXAMPLE.replace("pass ", "pass" + joint))
    for joint in (";", " ; ", ";  ", ";\t", ";\r\n ", "; \r\n ", ", ", " ", "; (a comment) ", "; ; ", "\r\n"):
        no_line(*(EXAMPLE.replace("; " + key, joint + key) for key in KEYS[1:]))
    for end in ("\n", "", "\r", "\r\n\r\n", "\n\r", "\r\r\n", "\r\n\n", "\n\n", ";\r\n", "; \r\n", " \r\n", ".\r\n", "\r\n ", "\0", "\r\n\0"):
        no_line(line_of(end=end))

    heading("R9: another order, a pair left out, a pair twice, another pair")
    pairs = EXAMPLE[len("Received-SPF: pass ") : -2].split("; ")
    for i, j in itertools.combinations(range(5), 2):
        no_line(with_pairs([*pairs[:i], pairs[j], *pairs[i + 1 : j], pairs[i], *pairs[j + 1 :]]))
    for i in range(5):
        no_line(with_pairs(pairs[:i] + pairs[i + 1 :]), with_pairs(pairs[: i + 1] + pairs[i:]))
    for other in ("mechanism=default", "problem=none", "receiver=mx.example", "x=y"):
        no_line(*(with_pairs([*pairs[:i], other, *pairs[i:]]) for i in range(6)))

    heading("R15: the slice is the line")
    for other in (" ", "\n", "\r\n", "\0", "y", "Subject: y\r\n", EXAMPLE):
        no_line(other + EXAMPLE, EXAMPLE + other)


def damaged_cases():
    heading("R9: the example cut, and with a byte of its fixed text, word or identity left out, changed or doubled")
    no_line(*(EXAMPLE[:place] for place in range(133)))
    values = {*range(28, 38), *range(50, 59), *range(76, 92), *range(100, 112)}
    for place in sorted({*range(133)} - values):
        before, byte, after = EXAMPLE[:place], EXAMPLE[place], EXAMPLE[place + 1 :]
        no_line(before + after, before + chr(ord(byte) ^ 1) + after, before + chr(ord(byte) ^ 128) + after)
        if byte.isalpha():
            no_line(before + byte.swapcase() + after)
        if byte != "=" or before.endswith("identity"):
            no_line(before + byte + byte + after)
    # A second `=` is the first byte of a value, if it isn't the client or the identity.
    no_form("client", "=192.0.2.1")
    read(receiver="=mx.example")
    read(helo="=mail.example")
    no_form("sender", '="user@example.com"')


def part_cases():
    heading("R10: the places in the example, of empty parts and of parts with backslashes")
    case(["read", hexed(EXAMPLE)], "ok 2 28 38 50 59 76 92 100 112 123 131")
    empty = 'Received-SPF: none receiver=""; client-ip=0.0.0.0; envelope-from=a; helo=""; identity=helo\r\n'
    case(["read", hexed(empty)], "ok 0 29 29 42 49 65 66 74 74 86 90")
    slashes = r'Received-SPF: fail receiver="\""; client-ip="0:0:0:0:0:0:0:1"; envelope-from="\\ \""; helo="a\\"; identity=mailfrom' + "\r\n"
    case(["read", hexed(slashes)], "ok 3 29 31 45 60 78 83 92 95 107 115")

    heading("R11, R12: the value of a part")
    for part, value in (("", ""), ("a b", "a b"), (r"\"", '"'), (r"\\", "\\"), (r"\\a", r"\a"), (r"a\"\\b", r'a"\b'), ("a@b;c", "a@b;c")):
        unquote(value, part)
    for part in ("\\", r"\a", '"', '"a"', "\x7f", "a\x7f", "a\\", "\\\\\\", r"\ ", r"a\nb", 'a"', '"a', r"\"" + '"', "a\tb", "a\r\n", "\xe9"):
        unquote(51, part)
    for byte in map(chr, range(256)):
        unquote(byte if byte in [" ", *HOST_BYTES] and byte not in '"\\' else 51, byte)
        unquote(byte if byte in '"\\' else 51, "\\" + byte)

    heading("R12: at most 320 bytes without backslashes")
    for byte, escaped in (("y", "y"), (" ", " "), ('"', r"\""), ("\\", r"\\")):
        unquote(319 * byte, 319 * escaped)
        unquote(320 * byte, 320 * escaped)
        for room in (0, 320, 321, 1500):
            unquote(51, 321 * escaped, room)
        unquote(51, 511 * escaped, 4096)
    unquote(319 * "y" + '"', 319 * "y" + r"\"")
    unquote('"' + 319 * "y", r"\"" + 319 * "y")
    unquote(51, r"\"" + 320 * "y")
    unquote(51, 320 * "y" + "\\")


def room_cases():
    heading("R13: 51 before 50, which is about the buffer alone")
    for part in (r"\a", "\\", '"', "\x7f", "yy\\", "yy\0"):
        for room in (0, 1, 2):
            unquote(51, part, room)
    unquote("", "", 0)
    unquote("", "", 1)
    unquote(50, r"\"", 0)
    unquote('"', r"\"", 1)
    unquote('"', r"\"", 2)
    unquote(50, "a b", 2)
    unquote("a b", "a b", 3)
    unquote(50, r"\\\"", 1)
    unquote(r"\"", r"\\\"", 2)
    for byte, escaped in (("y", "y"), ('"', r"\"")):
        unquote(50, 320 * escaped, 0)
        unquote(50, 320 * escaped, 319)
        unquote(320 * byte, 320 * escaped, 321)
        unquote(320 * byte, 320 * escaped, 4096)


# The inputs of the program received_line.


def prints(expected, text):
    """An input, of which the program reads 4,097 bytes, and what it prints."""
    case(["print", hexed(text[:4097])], hexed(expected))


def six(word="pass", end="\n", **values):
    """Six lines."""
    value = {name: usual for name, (usual, _) in USUAL.items()} | values
    return end.join([word, *(value[name] for name in ("client", "sender", "helo", "receiver", "identity"))]) + end


def prints_both(word="pass", **pairs):
    """Six lines of these values, the line of their forms, and back; the client then is the part that stands there."""
    values, forms = parted(pairs)
    line = line_of(word, **forms)
    prints(line, six(word, **values))
    back = values | ({"client": part_of(forms["client"])} if "client" in forms else {})
    prints(six(word, **back), line)


def print_cases():
    heading("received_line: six lines, and back")
    prints(EXAMPLE, "pass\n192.0.2.1\nuser@example.com\nmail.example\nmx.example\nmailfrom\n")
    prints("pass\n192.0.2.1\nuser@example.com\nmail.example\nmx.example\nmailfrom\n", EXAMPLE)
    prints(EXAMPLE, "pass\n192.0.2.1\nuser@example.com\nmail.example\nmx.example\nmailfrom")
    for word in WORDS:
        prints_both(word)
    prints_both("fail", identity=("helo", "helo"))
    prints_both("none", receiver=("", '""'), helo=("", '""'))
    prints_both(sender=(r'"a b\c"@x.y', r'"\"a b\\c\"@x.y"'))
    prints_both(sender=(320 * '"', form_of(320 * '"')), helo=("\\", r'"\\"'), receiver=(r"\"", r'"\\\""'))
    prints_both(client=("2001:DB8::1", '"2001:db8:0:0:0:0:0:1"'))
    prints_both(client=("::ffff:192.0.2.1", "192.0.2.1"))
    prints_both(client=("::192.0.2.1", '"0:0:0:0:0:0:c000:201"'))
    for result, pairs in lines_of_length(1500):
        prints_both(WORDS[result], **pairs)

    heading("received_line: six lines that can't be read")
    for word in ("wanting", "Pass", "", "pas", "pass ", " pass", "2", "received-spf:"):
        prints("input\n", six(word))
    for client in ("", "192.0.2", "192.0.2.256", "192.0.2.01", "192.0.2.1/32", "192.0.2.1 ", "2001:db8", "2001:db8::1::", "1.2.3.4:5", "localhost"):
        prints("input\n", six(client=client))
    for identity in ("mail", "", "Helo", "MAILFROM", "mailfrom ", "pra", '"helo"'):
        prints("input\n", six(identity=identity))
    prints("input\n", six("wanting", sender="", helo="a b"))


def input_cases():
    heading("received_line: no six lines")
    for rest in ("mx.example\n", "\n", " ", "\r\n", "y"):
        prints("input\n", six() + rest)
    prints("input\n", six(end="\r\n"))
    prints("input\n", six(end="\r"))
    for text in ("", "\n", "\n\n\n\n\n\n", "pass", "pass\n192.0.2.1\nuser@example.com\nmail.example\nmx.example\n", "Received-SPF", 5000 * "y"):
        prints("input\n", text)
    for text in ("\n" + EXAMPLE, " " + EXAMPLE, EXAMPLE.lower(), EXAMPLE.replace("Received-SPF:", "Received-SPF :")):
        prints("input\n", text)
    receiver = (4096 - len(six(receiver=""))) * "y"
    prints("refused 21\n", six(receiver=receiver))
    prints("input\n", six(receiver=receiver + "y"))
    prints("input\n", six(receiver=receiver) + "\n")
    prints("input\n", six(receiver=receiver + 1000 * "y"))

    heading("received_line: refusals")
    for sender in ("", 321 * "y", "a\tb"):
        prints("refused 20\n", six(sender=sender))
        prints("refused 20\n", six(sender=sender, helo="a b"))
    for helo in ("a b", "mail.example\r", 256 * "y"):
        prints("refused 21\n", six(helo=helo))
        prints("refused 21\n", six(receiver=helo))
    for result, pairs in lines_of_length(1501):
        values, forms = parted(pairs)
        prints("refused 50\n", six(WORDS[result], **values))
        prints("refused 51\n", line_of(WORDS[result], **forms))
    for text in ("Received-SPF:", "Received-SPF: ", EXAMPLE[:-2], EXAMPLE[:-2] + "\n", EXAMPLE + "\r\n", EXAMPLE + "\n", EXAMPLE + six(), EXAMPLE + EXAMPLE):
        prints("refused 51\n", text)
    prints("refused 51\n", "Received-SPF:" + 4987 * "y")
    prints("refused 51\n", EXAMPLE + 4867 * "y")


def main(path):
    for call in VECTORS:
        vectors(path / f"{call}-w202.txt", call)
    for section in (value_cases, quoting_cases, length_cases, refusal_cases, form_cases, line_cases, damaged_cases, part_cases, room_cases):
        section()
    for section in (print_cases, input_cases):
        section()
    need(all(line.isascii() and len(line) < CASE for line in given + printed), "a line is too long or not ASCII")
    store(CRATE, given, printed)
    print(sum(not line.startswith("#") for line in given), "cases")


if __name__ == "__main__":
    need(len(sys.argv) == 2, __doc__)
    main(pathlib.Path(sys.argv[1]))
