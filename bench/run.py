#!/usr/bin/env python3
"""Plays rounds of the bench, and of go-spf where it was built, by turns; prints the medians as tables, and with valgrind the instructions.

run.py FOLDER [ROUNDS]     FOLDER has the built programs; the figures are also left there in figures.tsv, for plot.py
"""
import os
import shutil
import statistics
import subprocess
import sys


def lines(command):
    out = subprocess.run(command, check=True, stdout=subprocess.PIPE, text=True).stdout
    return [line.split("\t") for line in out.splitlines()]


def total(folder, case, times, peer):
    """Instructions of a whole run, by callgrind."""
    command = ["valgrind", "--tool=callgrind", "--callgrind-out-file=/dev/null", f"{folder}/bench", case, str(times)] + peer
    said = subprocess.run(command, check=True, stderr=subprocess.PIPE, text=True).stderr
    return next(int(line.split(":")[1]) for line in said.splitlines() if "Collected" in line)


def instructions(folder, case, micros, peer=()):
    """Instructions of one call: the difference of two runs."""
    few, more = (1, 3) if micros > 30 else (10, 110)
    return (total(folder, case, more, list(peer)) - total(folder, case, few, list(peer))) // (more - few)


def ratio(theirs, ours):
    return statistics.median(t / o for t, o in zip(theirs, ours))


def main():
    folder = sys.argv[1]
    rounds = int(sys.argv[2]) if len(sys.argv) > 2 else 15
    beside = os.path.exists(f"{folder}/gospf")
    counted = shutil.which("valgrind") is not None
    cases, ours, spf2, gospf = {}, {}, {}, {}
    for _ in range(rounds):
        for number, word, what, micros, *peer in lines([f"{folder}/bench"]):
            cases[word] = (number, what)
            ours.setdefault(word, []).append(float(micros))
            if peer:
                spf2.setdefault(word, []).append(float(peer[0]))
        for word, micros in lines([f"{folder}/gospf"]) if beside else []:
            gospf.setdefault(word, []).append(float(micros))
    print(f"medians of {rounds} rounds; microseconds; a ratio is the median of the rounds' ratios\n")
    print(f"{'case':<38} {'ours':>9} {'a second':>10} {'instr.':>9} {'libspf2':>9} {'instr.':>9} {'ratio':>6} {'go-spf':>9} {'ratio':>6}")
    with open(f"{folder}/figures.tsv", "w") as figures:
        for word, (number, what) in cases.items():
            micros = statistics.median(ours[word])
            count = instructions(folder, number, micros) if counted else ""
            figures.write(f"{word}\t{micros:.4f}\t{count}\n")
            line = f"{what:<38} {micros:>9.3f} {1e6 / micros:>10,.0f} {count:>9}"
            if word in spf2:
                peer = instructions(folder, number, micros, ("libspf2",)) if counted else ""
                line += f" {statistics.median(spf2[word]):>9.3f} {peer:>9} {ratio(spf2[word], ours[word]):>6.2f}"
            elif word in gospf:
                line += " " * 27
            if word in gospf:
                line += f" {statistics.median(gospf[word]):>9.3f} {ratio(gospf[word], ours[word]):>6.2f}"
            print(line)


main()
