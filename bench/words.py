#!/usr/bin/env python3
"""Word lists and what they ask for, worked out from the rules in docs/DECISIONS.md, not by the program.

Writes crates/words_table/stdin (a list a line, a tab before each word) and crates/words_table/stdout (its answer)."""
import os
import random
import re

RANGES = {
    "servers": (1, 64, 1), "workers": (1, 64, 1), "colours": (1, 65536, 65536), "cache": (0, 65536, 64),
    "quantum": (1, 1024, 16), "turns": (1, 10**9, 10**6), "balance": (0, 10**6, 0), "choice": (0, 2**64 - 1, 0),
    "trace": (0, 1, 0), "number": (0, 2**64 - 1, 0), "size": (1, 4000, 1),
}
ROUNDS = ["servers", "workers", "colours", "cache", "quantum", "turns", "balance", "choice"]
COMMANDS = {"run": ROUNDS + ["trace"], "replay": [], "gen": ["number", "size"], "load": ROUNDS + ["number", "size"]}


def answer(words):
    if not words or words[0] not in COMMANDS:
        return "refused"
    has, given, rest = COMMANDS[words[0]], {}, words[1:]
    while rest:
        word, rest = rest[0], rest[1:]
        if not word.startswith("--"):
            return "refused"
        name, equals, value = word[2:].partition("=")
        if not equals:
            if not rest:
                return "refused"
            value, rest = rest[0], rest[1:]
        if name not in has or name in given or not re.fullmatch("[0-9]{1,20}", value):
            return "refused"
        low, high, _ = RANGES[name]
        if not low <= int(value) <= high:
            return "refused"
        given[name] = int(value)
    return " ".join([words[0]] + [str(given.get(name, RANGES[name][2])) for name in RANGES])


def forms(name, value):
    return [["--" + name, value], ["--" + name + "=" + value]]


def lists():
    yield []
    for word in ["run", "replay", "gen", "load", "live", "help", "--help", "-h", "-V", "--version", "--", "-", "", "RUN", "Run", "ru",
                 "runs", "run=1", "--run", "r", "g", "l", "audit", "save", "resume", "drust", "run run", "1", "--turns", "--turns=5"]:
        yield [word]
    for command, has in COMMANDS.items():
        for name, (low, high, default) in RANGES.items():
            for value in dict.fromkeys([low, high, default, high + 1, low - 1]):
                for form in forms(name, str(value)):
                    yield [command] + form
    for name, (low, high, default) in RANGES.items():
        command = "load" if name in COMMANDS["load"] else "run"
        for value in [str(high).zfill(20), str(low).zfill(20), str(low).zfill(21), str(high).zfill(21), str(low).zfill(2), "0" * 20, "9" * 20, "9" * 21,
                      "", "+1", "-1", "1x", "x1", "0x1", " 1", "1 ", "1_0", "1=1", "1e0", "1.0", "\u0661", "\u00b9", ".", "--", "--size", "=1"]:
            for form in forms(name, value):
                yield [command] + form
        for end in range(len(name)):
            yield [command, "--" + name[:end], str(low)]
        for word in ["--" + name + "s", "--" + name.upper(), "--" + name.capitalize(), "-" + name, "---" + name, name, "--" + name + " ", "-- " + name,
                     "--" + name + "=", "--" + name, "\u2014" + name, "--no-" + name]:
            yield [command, word, str(low)]
            yield [command, word]
            yield [command, word + "=" + str(low)]
        for first in forms(name, str(low)):
            for second in forms(name, str(high)):
                yield [command] + first + second
    for command, has in COMMANDS.items():
        for a in has:
            for b in has:
                if a != b:
                    yield [command] + forms(a, str(RANGES[a][1]))[0] + forms(b, str(RANGES[b][0]))[1]
        for word in ["help", "--help", "-h", "--", "-", "", "run", "5", "--=5", "--=", "-5", "=", "live", "--version"]:
            yield [command, word]
            for name in has[-1:]:
                for form in forms(name, str(RANGES[name][0])):
                    yield [command, word] + form
                    yield [command] + form + [word]
        for name in has:
            yield [command, "--" + name, "--" + has[0], "1"]
    yield from [["run", "--turns=5", "--turns", "6"], ["run", "--servers", "0"], ["run", "--"], ["gen", "--turns", "5"], ["run", "--turns=0000000000000000008"]]


def drawn(draw):
    command = draw.choice(["run", "load", "gen", "run", "load"])
    has = COMMANDS[command][:]
    draw.shuffle(has)
    words = [command]
    for name in has[: draw.randint(0, len(has))]:
        low, high, _ = RANGES[name]
        value = str(draw.randint(low, high))
        words += draw.choice(forms(name, value.zfill(draw.choice([1, 1, 20, draw.randint(1, 22)]))))
    return words


def changed(draw, words):
    words = words[:]
    at = draw.randrange(len(words))
    kind = draw.randrange(5)
    if kind == 0:
        del words[at]
    elif kind == 1:
        words.insert(at, words[draw.randrange(len(words))])
    elif kind == 2:
        words[at] = words[at][:-1]
    elif kind == 3:
        words[at] = words[at] + draw.choice("0x= -")
    else:
        other = draw.randrange(len(words))
        words[at], words[other] = words[other], words[at]
    return words


def main():
    draw = random.Random(7)
    kept = dict.fromkeys(tuple(words) for words in lists())
    while len(kept) < COUNT:
        words = drawn(draw)
        kept[tuple(words)] = None
        kept[tuple(changed(draw, words))] = None
    kept = list(kept)[:COUNT]
    folder = os.path.join(os.path.dirname(__file__), "..", "crates", "words_table")
    with open(os.path.join(folder, "stdin"), "w") as out:
        out.write("".join("".join("\t" + word for word in words) + "\n" for words in kept))
    with open(os.path.join(folder, "stdout"), "w") as out:
        out.write("".join(answer(list(words)) + "\n" for words in kept))


COUNT = 2500

if __name__ == "__main__":
    main()
