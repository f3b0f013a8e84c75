#!/usr/bin/env python3
"""Received-SPF lines that were written here, read by Python's `email` package.

    make programs && python3 tools/received_email.py PATH/vectors-02

writes a line with the program received_line for each vector of write-w202.txt that a line answers, puts it before the other headers of a message, and
parses the message. The package must find one Received-SPF field, with just the body that was written, and the other fields and the text behind it as
they were. The program's line must be the vector's. What is wrong is printed, and then counts. The gate doesn't run this script.
"""

import email
import email.policy
import ipaddress
import pathlib
import subprocess
import sys

ROOT = pathlib.Path(__file__).resolve().parent.parent
PROGRAM = ROOT / "target" / "bin" / "received_line"
WORDS = ["none", "neutral", "pass", "fail", "softfail", "temperror", "permerror"]
IDENTITIES = ["mailfrom", "helo"]
NAME = b"Received-SPF: "
REST = b"Received: from a by b; Tue, 17 Nov 2026 00:00:00 +0000\r\nSubject: a subject\r\n\r\nthe text\r\n"

# As RFC 5322 has it, and the package's older reader, which keeps what it finds.
POLICIES = {"SMTP": email.policy.SMTP, "compat32": email.policy.compat32}


def unhexed(word):
    return b"" if word == "-" else bytes.fromhex(word)


def given(path):
    """The six lines of each vector that a line answers, and that line."""
    for line in path.read_text(encoding="ascii").splitlines():
        (_, result, client, sender, helo, receiver, identity, _), answer = (part.split(" ") for part in line.split(" => "))
        if answer[0] == "ok":
            lines = [WORDS[int(result)].encode(), str(ipaddress.ip_address(unhexed(client))).encode(), unhexed(sender), unhexed(helo), unhexed(receiver)]
            yield b"\n".join(lines + [IDENTITIES[int(identity)].encode(), b""]), unhexed(answer[1])


def run(text):
    return subprocess.run([PROGRAM], input=text, stdout=subprocess.PIPE, check=True).stdout


def is_read(policy, line):
    """Whether the package finds the line's body, and the rest as it was."""
    message = email.message_from_bytes(line + REST, policy=policy)
    bodies = [str(body).encode("ascii") for body in message.get_all("Received-SPF")]
    return bodies == [line[len(NAME) : -2]] and message["Subject"] == "a subject" and message.get_payload() in ("the text\r\n", "the text\n") and not message.defects


def main():
    written = differ = 0
    read = dict.fromkeys(POLICIES, 0)
    for text, expected in given(pathlib.Path(sys.argv[1]) / "write-w202.txt"):
        line = run(text)
        written += 1
        if line != expected:
            differ += 1
            print("another line than the vector's:", line)
        for name, policy in POLICIES.items():
            if is_read(policy, line):
                read[name] += 1
            else:
                print(f"another body, policy {name}:", line)
    print(f"{written} lines written, {differ} unlike their vectors;", ", ".join(f"read back by {name}: {count}" for name, count in read.items()))


main()
