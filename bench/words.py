#!/usr/bin/env python3
"""Writes crates/wm_test_texts/data/plans.txt: what the words of a command line are read as, by Python's own reading of the
rules: options are `--x v` or `--x=v`, each at most once, in any order; in the first form v doesn't begin with a hyphen.

    python3 bench/words.py > crates/wm_test_texts/data/plans.txt
"""
import re

NAME = re.compile(r"[A-Z$#@][A-Z0-9$#@_]{0,9}")
NUMBER = re.compile(r"[0-9]{1,20}")
OFFSET = re.compile(r"([EW])([0-9]{2})([0-9]{2})")


class Bad(Exception):
    pass


def path(text):
    if text == "":
        raise Bad
    return text


def name(text):
    if not NAME.fullmatch(text):
        raise Bad
    return text


def qualified(text):
    parts = text.split("/")
    if len(parts) != 2:
        raise Bad
    return "/".join(name(part) for part in parts)


def offset(text):
    found = OFFSET.fullmatch(text)
    if not found or int(found[2]) > 23 or int(found[3]) > 59:
        raise Bad
    minutes = 60 * int(found[2]) + int(found[3])
    return minutes if found[1] == "E" else -minutes


def number(low, high):
    def read(text):
        if not NUMBER.fullmatch(text) or not low <= int(text) <= high:
            raise Bad
        return int(text)

    return read


def listen(text):
    """Where a server listens: an address, and behind a colon a port."""
    addr, _, port = text.partition(":")
    if addr not in ("127.0.0.1", "localhost"):
        raise Bad
    return f"{addr}:{number(0, 65535)(port)}"


# What each command's options are read by, and what stands where they aren't given. An option without a default is required.
COMMANDS = {
    "run": {
        "store": (path, ":memory:"),
        "ctl": (qualified, "QGPL/QBATCH"),
        "user": (name, "QUSER"),
        "offset": (offset, 0),
        "log-limit": (number(1, 1000000), 1000000),
    },
    "serve": {
        "listen": (listen, None),
        "workers": (number(1, 16), 2),
        "monitors": (number(1, 8), 1),
        "store": (path, ":memory:"),
        "ctl": (qualified, "QGPL/QBATCH"),
        "offset": (offset, 0),
        "log-limit": (number(1, 1000000), 1000000),
    },
    "drill": {
        "seed": (number(0, 18446744073709551615), None),
        "jobs": (number(1, 5000), None),
    },
}


def options(words):
    """The values of the options by their names."""
    given = {}
    words = list(words)
    while words:
        word = words.pop(0)
        if not word.startswith("--"):
            raise Bad
        option, sign, value = word[2:].partition("=")
        if not sign:
            if not words or words[0].startswith("-"):
                raise Bad
            value = words.pop(0)
        if option in given:
            raise Bad
        given[option] = value
    return given


def plan(words):
    if not words or words[0] not in COMMANDS:
        raise Bad
    known = COMMANDS[words[0]]
    given = options(words[1:])
    if not set(given) <= set(known):
        raise Bad
    said = [words[0]]
    for option, (read, default) in known.items():
        if option in given:
            value = read(given[option])
        elif default is None:
            raise Bad
        else:
            value = default
        said.append(f"{option} {value}")
    return " ".join(said)


def written(word):
    """A word as a case writes it: without the bytes that part words and escapes."""
    return "".join(char if 0x20 <= ord(char) <= 0x7E and char not in "\\{}|" else "".join(f"\\x{byte:02x}" for byte in char.encode()) for char in word)


class Table:
    def __init__(self):
        self.asked = set()

    def begin(self, title):
        print(f"== {title}")

    def ask(self, *words):
        if words in self.asked:
            return
        self.asked.add(words)
        try:
            answer = plan(words)
        except Bad:
            answer = "bad"
        asked = "".join(f"{written(word)}|" for word in words)
        print(f"> plan {asked}".rstrip(" ") + f"\n{answer}")

    def both(self, command, option, value, *others):
        """An option in both forms."""
        self.ask(command, f"--{option}", value, *others)
        self.ask(command, f"--{option}={value}", *others)


# Values that each option takes, and such as it doesn't: at each bound and one past it.
RUN_VALUES = {
    "store": ["a", ":memory:", "a b", "/tmp/wrkmgr.db", "a=b", "=", "", "-", "-a", "--", "--user", "é", "run"],
    "ctl": ["A/B", "QGPL/QBATCH", "ABCDEFGHIJ/ABCDEFGHIJ", "$/#", "A/B/C", "A", "/B", "A/", "/", "", "a/B", "A/b", "1/B", "A/1", "A//B", "ABCDEFGHIJK/B", "A/ABCDEFGHIJK", "*LIBL/A", "A /B", "-/B"],
    "user": ["ANN", "QSYS", "@", "A_9", "ABCDEFGHIJ", "ABCDEFGHIJK", "ann", "9A", "_A", "", "A B", "A-B", "-A", "É"],
    "offset": ["E0000", "W0000", "E0001", "W0530", "E2359", "W2359", "E2400", "W2400", "E2360", "E0060", "W0060", "e0000", "N0000", "0000", "E000", "E00000", "E+100", "E 100", "+0530", "-0530", "E00:00", "E", "", "EE000"],
    "log-limit": ["1", "2", "01", "00000000000000000001", "000000000000000000001", "999999", "1000000", "00000000000001000000", "1000001", "0", "00000000000000000000", "18446744073709551617", "99999999999999999999", "100000000000000000000", "+1", "-1", "1.0", "1e3", " 1", "1 ", "1_000", "", "x", "٣"],
}
SERVE_VALUES = {
    "listen": [
        "127.0.0.1:80", "localhost:8080", "127.0.0.1:0", "localhost:65535", "localhost:65536", "localhost:0080", "localhost:00000000000000000080", "localhost:000000000000000000080",
        "localhost:18446744073709551696", "localhost:99999999999999999999", "localhost:", "localhost", "127.0.0.1", ":80", ":", "", "80", "localhost:80:", "localhost:80:80", ":localhost:80",
        "localhost::80", "localhost:+80", "localhost:-1", "localhost: 80", "localhost:80 ", " localhost:80", "localhost :80", "localhost:http", "localhost:8O", "Localhost:80", "LOCALHOST:80",
        "localhost.:80", "localhos:80", "localhosts:80", "127.0.0.2:80", "127.0.0.1.:80", "127.0.0.01:80", "127.1:80", "0.0.0.0:80", "::1:80", "[::1]:80", "*:80", "localhost/80", "localhost=80",
    ],
    "workers": ["1", "16", "0", "17", "016", "00000000000000000016", "000000000000000000016", "18446744073709551617", "4294967297", "+1", "-1", "1.0", "", "x"],
    "monitors": ["1", "8", "0", "9", "08", "00000000000000000008", "000000000000000000008", "18446744073709551617", "4294967297", "+1", "-1", "1.0", "", "x"],
    "store": ["a", ":memory:", "", "-", "a=b"],
    "ctl": ["A/B", "A", "a/B", "", "ABCDEFGHIJ/ABCDEFGHIJ"],
    "user": ["ANN"],
    "offset": ["E2359", "W0530", "E2400", "", "0"],
    "log-limit": ["1", "1000000", "0", "1000001", ""],
}
DRILL_VALUES = {
    "seed": ["0", "7", "18446744073709551615", "18446744073709551616", "99999999999999999999", "000000000000000000007", "00000000000000000007", "+7", "-7", "7.0", "", "x"],
    "jobs": ["1", "5000", "0", "5001", "05000", "00000000000000005000", "000000000000000005000", "18446744073709556615", "+1", "-1", "", "x"],
}


def commands(table):
    table.begin("The first word")
    table.ask()
    for word in ("run", "serve", "drill", "Run", "RUN", "runs", "ru", "", " run", "run ", "-run", "--run", "-", "--", "help", "--help", "-h", "version", "--version", "-V"):
        table.ask(word)
    table.ask("run", "run")
    table.ask("--store", "a", "run")
    table.ask("--store=a", "run")
    table.ask("serve", "--listen", "127.0.0.1:80")


def values(table):
    for option, texts in RUN_VALUES.items():
        table.begin(f"Values of --{option}, in both forms")
        for text in texts:
            table.both("run", option, text)
    table.begin("Values of the options of serve, in both forms")
    for text in SERVE_VALUES["listen"]:
        table.both("serve", "listen", text)
    for option, texts in list(SERVE_VALUES.items())[1:]:
        for text in texts:
            table.both("serve", option, text, "--listen", "127.0.0.1:80")
    table.begin("Values of the options of drill, in both forms")
    for text in DRILL_VALUES["seed"]:
        table.both("drill", "seed", text, "--jobs", "5")
    for text in DRILL_VALUES["jobs"]:
        table.both("drill", "jobs", text, "--seed=7")


SERVED = {"listen": "localhost:80", "workers": "16", "monitors": "8", "store": "a", "ctl": "A/B", "offset": "W0530", "log-limit": "9"}
GOOD = {"store": "a", "ctl": "A/B", "user": "ANN", "offset": "W0530", "log-limit": "9"}


def times(table):
    table.begin("Each option once, twice, without its value, and in any order")
    for option, value in GOOD.items():
        table.ask("run", f"--{option}")
        table.ask("run", f"--{option}", value, f"--{option}", value)
        table.ask("run", f"--{option}={value}", f"--{option}={value}")
        table.ask("run", f"--{option}", value, f"--{option}={value}")
        table.ask("run", f"--{option}=", value)
        table.ask("run", f"--{option}", f"--{option}", value)
        table.ask("run", f"--{option}", f"--{option}={value}")
        table.ask("run", value, f"--{option}")
        table.ask("run", f"--{option}", value, value)
        table.ask("run", f"-{option}", value)
        table.ask("run", f"-{option[0]}", value)
        table.ask("run", f"{option}={value}")
        table.ask("run", f"--{option[:-1]}", value)
        table.ask("run", f"--{option}s={value}")
        table.ask("run", f"--{option.upper()}={value}")
    for at in range(len(GOOD)):
        order = list(GOOD.items())[at:] + list(GOOD.items())[:at]
        table.ask("run", *(f"--{option}={value}" for option, value in order))
        table.ask("run", *(word for option, value in reversed(order) for word in (f"--{option}", value)))
        table.ask("run", *(word for option, value in order[:2] for word in (f"--{option}", value)), *(f"--{option}={value}" for option, value in order[2:4]))
    for at in range(len(SERVED)):
        order = list(SERVED.items())[at:] + list(SERVED.items())[:at]
        table.ask("serve", *(f"--{option}={value}" for option, value in order))
        table.ask("serve", *(word for option, value in reversed(order) for word in (f"--{option}", value)))
        table.ask("serve", *(f"--{option}={value}" for option, value in order), f"--{order[0][0]}={order[0][1]}")
        table.ask("serve", *(f"--{option}={value}" for option, value in order[1:]))
    table.ask("serve", "--listen=localhost:80", "--seed=7")
    table.ask("run", "--listen=localhost:80")
    table.ask("drill", "--jobs=5", "--seed=7", "--workers=2")
    table.ask("drill", "--seed", "7")
    table.ask("drill", "--jobs", "5")
    table.ask("drill", "--jobs=5", "--seed", "7")
    table.ask("drill", "--jobs=5", "--seed=7", "--seed=7")
    table.ask("drill", "--seed=7", "--jobs=5", "--user=ANN")
    table.ask("run", "--seed=7")
    table.ask("run", "--jobs=5", "--seed=7")


def hyphens(table):
    table.begin("Hyphens, and what ends or replaces options elsewhere")
    for words in (
        ("--",), ("-",), ("--", "--store", "a"), ("--store", "a", "--"), ("--store", "a", "-"), ("-", "--store", "a"),
        ("--store", "--"), ("--store", "-"), ("--store=--",), ("--store=-",), ("--store=-x",), ("--help",), ("-h",),
        ("--help", "a"), ("--help=a",), ("--version",), ("-V",), ("--=a",), ("--", "a"), ("---store", "a"), ("---store=a",),
        ("--store", "a", "--help"), ("--", "a", "--store", "b"), ("--store", "-=a"), ("-=a",), ("=a",), ("--store",), ("--store", ""),
        ("--store=",), ("",), ("--store", "a", ""), ("", "--store", "a"), ("--listen=127.0.0.1:80",), ("--workers", "2"), ("--monitors=1",),
    ):
        table.ask("run", *words)


def main():
    table = Table()
    commands(table)
    values(table)
    times(table)
    hyphens(table)


main()
