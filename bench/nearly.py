#!/usr/bin/env python3
"""Plays connections over HTTP whose bytes are nearly right: good requests with a byte or a line changed, cut off, doubled or
dropped, with wrong lengths, too many fields, heads and bodies that are too long, and commands that are nearly CL. What each is
answered, how it ends and how many bytes are read of it is reckoned here, by rules of its own over the machine of connections.py,
and the program must answer the same. COUNT connections, 20,000 where it isn't said, are drawn from SEED; the same seed draws the
same ones. Those for which these rules know no answer, as a command that none of them knows, are drawn anew.

    bench/nearly.py [COUNT [SEED]]          plays them by crates/wm_test_serve/out/wm_test_serve
    bench/nearly.py --write FILE [COUNT [SEED]]"""
import random
import re
import subprocess
import sys
import tempfile
from collections import Counter
from pathlib import Path

from connections import Closed, Connection, NAME, shown, unescaped

ROOT = Path(__file__).resolve().parent.parent
PROGRAM = ROOT / "crates/wm_test_serve/out/wm_test_serve"
HEAD, BODY, FIELDS, REQUESTS = 8192, 8192, 32, 10000
TOKEN = set("!#$%&'*+-.^_`|~0123456789abcdefghijklmnopqrstuvwxyzABCDEFGHIJKLMNOPQRSTUVWXYZ")
# The errors that a connection may answer, by status; 400 and 409 also the lines of faults and of refusals.
ERRORS = {400: r"HEAD|LENGTH|ONE COMMAND|CL [1-9] [A-Z]+( \d+)?|CM [1-9] [A-Z]+( [A-Z0-9]+)*", 404: "NO ROUTE", 405: "METHOD", 409: r"NO \d\d [A-Z]+( \w+)*",
          411: "LENGTH REQUIRED", 413: "TOO LARGE", 431: "HEAD TOO LARGE", 501: "TRANSFER ENCODING"}


class Unknown(Exception):
    """These rules don't know the answer."""


# Heads: where it is decided what the bytes are, in the order in which they come

class Head:
    """What bytes are as a head: `whole`, `bad`, `many` (33 lines of fields) or `waits`, and how many bytes decide it."""

    def __init__(self, text):
        self.text, self.at, self.verdict = text, 0, None
        self.method = self.target = self.version = ""
        self.fields = []
        try:
            self.start_line()
            while self.field():
                if len(self.fields) > FIELDS:
                    self.decide("many")
            self.decide("whole")
        except Closed:
            pass

    def decide(self, verdict):
        self.verdict = verdict
        raise Closed

    def byte(self):
        """The next byte, where there is one."""
        if self.at == len(self.text):
            self.decide("waits")
        self.at += 1
        return self.text[self.at - 1]

    def ends_line(self, byte):
        """Whether a line ends with this byte, and the next one where it is a CR."""
        if byte == "\r" and self.byte() != "\n":
            self.decide("bad")
        return byte in "\r\n"

    def part(self, good, end):
        """Bytes that are good, up to one that isn't, which must be an end."""
        start = self.at
        while True:
            byte = self.byte()
            if not good(byte):
                break
        if byte not in end:
            self.decide("bad")
        return self.text[start:self.at - 1], byte

    def start_line(self):
        byte = self.byte()
        while self.ends_line(byte):
            byte = self.byte()
        self.at -= 1
        self.method, _ = self.part(lambda b: b in TOKEN, " ")
        if not self.method:
            self.decide("bad")
        self.target, _ = self.part(lambda b: b > " " and b != "\x7f", " ")
        if not self.target or not is_utf8(self.target):
            self.decide("bad")
        for wanted in "HTTP/1.":
            if self.byte() != wanted:
                self.decide("bad")
        self.version = self.byte()
        if self.version not in "01" or not self.ends_line(self.byte()):
            self.decide("bad")

    def field(self):
        byte = self.byte()
        if self.ends_line(byte):
            return False
        self.at -= 1
        name, _ = self.part(lambda b: b in TOKEN, ":")
        if not name:
            self.decide("bad")
        value, end = self.part(lambda b: b == "\t" or (b >= " " and b != "\x7f"), "\r\n")
        self.ends_line(end)
        self.fields.append((name.lower(), value.strip(" \t")))
        return True


def is_utf8(text):
    try:
        text.encode("latin-1").decode("utf-8")
        return True
    except UnicodeDecodeError:
        return False


# Commands: what a line spells, and which of the commands that the cases use it is

def is_blank(byte):
    return byte in (" ", "\t")


def tokens_of(line):
    """The items of a line with their places, or the line of its fault."""
    at, opened, items, free, quoted = 0, [], [], True, False
    while at < len(line):
        byte = line[at]
        if is_blank(byte):
            at, free = at + 1, True
        elif byte == ")":
            if not opened:
                return f"CL 5 STRAYPAREN {at}"
            opened.pop()
            items.append((at, ")", ""))
            at, free = at + 1, True
        elif line[at:at + 2] == "/*" and (free or quoted):
            end = line.find("*/", at + 2)
            inside = line[at + 2:end if end >= 0 else len(line)]
            wrong = re.search(r"[^\t -~]", inside)
            if wrong:
                return f"CL 8 BADBYTE {at + 2 + wrong.start()}"
            if end < 0:
                return f"CL 6 OPENCOMMENT {at}"
            at, free = end + 2, True
        elif not free:
            return f"CL 8 BADBYTE {at}"
        elif byte == "(":
            if len(opened) == 16:
                return f"CL 9 TOODEEP {at}"
            opened.append(at)
            items.append((at, "(", ""))
            at += 1
        elif byte == "'":
            end = at + 1
            while True:
                if end == len(line):
                    return f"CL 3 OPENQUOTE {at}"
                if line[end] == "'" and line[end + 1:end + 2] != "'":
                    break
                if not " " <= line[end] <= "~":
                    return f"CL 8 BADBYTE {end}"
                end += 2 if line[end] == "'" else 1
            items.append((at, "text", line[at + 1:end].replace("''", "'")))
            at, free = end + 1, False
        elif "!" <= byte <= "~":
            word = re.match(r"[!-&*-~]+", line[at:])[0]
            key = line[at + len(word):at + len(word) + 1] == "("
            if key and len(opened) == 16:
                return f"CL 9 TOODEEP {at + len(word)}"
            if key:
                opened.append(at + len(word))
            items.append((at, "key" if key else "word", word.upper()))
            at, free = at + len(word) + key, key
        else:
            return f"CL 8 BADBYTE {at}"
        quoted = bool(items) and items[-1][1] == "text" and not free
    if opened:
        return f"CL 4 OPENPAREN {opened[-1]}"
    if items and not (items[0][1] == "word" and NAME.match(items[0][2])):
        return "CL 2 BADNAME"
    return items


COMMANDS = set(re.findall(r"^\| ([A-Z]{3,10}) \| [A-Za-z0-9 ]+ \|", (ROOT / "docs/FORMATS.md").read_text(), re.M))
assert len(COMMANDS) == 34, sorted(COMMANDS)


def submitted(items):
    """SBMJOB with CMD(CALL PGM(ECHO)), and JOB and HOLD."""
    given, at = {}, 1
    while at < len(items):
        place, kind, word = items[at]
        if kind != "key":
            raise Unknown
        end = at + 1
        depth = 1
        while depth:
            depth += {"key": 1, "(": 1, ")": -1}.get(items[end][1], 0)
            end += 1
        values = [item[1:] for item in items[at + 1:end - 1]]
        at = end
        if word in given:
            return f"CM 3 TWICE {place}"
        given[word] = values
        if word == "CMD":
            if values not in ([("word", "CALL"), ("key", "PGM"), ("word", "ECHO"), (")", "")], [("word", "CALL"), ("word", "ECHO")]):
                raise Unknown
        elif word not in ("JOB", "HOLD"):
            if word in ("RQSDTA", "JOBD", "JOBQ", "JOBPTY", "RTGDTA", "SCDDATE", "SCDTIME"):
                raise Unknown
            return f"CM 2 UNKNOWNKEYWORD {place}"
        elif len(values) != 1 or values[0][0] != "word" or values[0][1] == "*JOBD":
            raise Unknown
        elif not (NAME.match(values[0][1]) if word == "JOB" else values[0][1] in ("*YES", "*NO")):
            return f"CM 5 BADVALUE {place}"
    if "CMD" not in given:
        return "CM 4 MISSING CMD"
    if "JOB" not in given or given.get("HOLD") == [("word", "*NO")]:
        raise Unknown
    return f"SBMJOB JOB({given['JOB'][0][1]})" + (" HOLD(*YES)" if "HOLD" in given else "")


PLAIN = {"WRKSBS": "WRKSBS", "DSPLOG": "DSPLOG", "HLDJOBQ QBATCH": "HLDJOBQ QBATCH", "RLSJOBQ QBATCH": "RLSJOBQ QBATCH",
         "CLRJOBQ QBATCH": "CLRJOBQ QBATCH", "PWRDWNSYS OPTION *IMMED )": "PWRDWNSYS OPTION(*IMMED)"}


def command_of(items):
    """The command as the machine of connections.py has it, or the line of its fault."""
    word = items[0][2]
    if word not in COMMANDS:
        return "CM 1 UNKNOWNCOMMAND"
    plain = " ".join(item[2] or item[1] for item in items)
    if plain in PLAIN and not any(item[1] == "text" for item in items):
        return PLAIN[plain]
    if word == "SBMJOB":
        return submitted(items)
    if word == "CRTJOBQ" and len(items) == 1:
        return "CM 4 MISSING JOBQ"
    if word == "CRTJOBQ" and len(items) == 2 and items[1][1] == "word":
        if NAME.match(items[1][2]):
            return f"CRTJOBQ {items[1][2]}"
        if "/" not in items[1][2]:
            return f"CM 5 BADVALUE {items[1][0]}"
    raise Unknown


def logical_lines(body):
    lines, joined, sign = [], "", None
    parts = body.split("\n")
    ends = [True] * (len(parts) - 1) + [False]
    if parts[-1] == "":
        parts.pop()
    for part, ended in zip(parts, ends):
        part = part[:-1] if ended and part.endswith("\r") else part
        part = part.rstrip(" \t")
        if sign == "+":
            part = part.lstrip(" \t")
        sign = part[-1:] if part[-1:] in ("+", "-") and part else None
        joined += part[:-1] if sign else part
        if not sign:
            lines.append(joined)
            joined = ""
    return lines + [joined] if sign else lines


# A connection, read in pieces

class Nearly(Connection):
    def __init__(self, sent, piece):
        super().__init__(sent)
        self.piece, self.unread, self.read = piece, 0, 0

    def read_on(self, most):
        """Reads once; at the end of the input the connection ends."""
        count = min(most, self.piece, len(self.sent) - self.unread)
        if count == 0:
            self.end = "CutShort" if self.unread else "Done"
            raise Closed
        self.unread += count
        self.read += count

    def head(self):
        head = Head(self.sent[:HEAD])
        while head.verdict == "waits" or self.unread < head.at:
            if self.unread >= HEAD:
                self.refuse(431, "HEAD TOO LARGE")
            self.read_on(HEAD - self.unread)
        if head.verdict == "bad":
            self.refuse(400, "HEAD")
        if head.verdict == "many":
            self.refuse(431, "HEAD TOO LARGE")
        return head

    def request(self, number):
        head = self.head()
        lengths = [v for n, v in head.fields if n == "content-length"]
        if any(n == "transfer-encoding" for n, _ in head.fields):
            self.refuse(501, "TRANSFER ENCODING")
        if len(lengths) > 1 or any(not re.fullmatch("[0-9]{1,9}", v) for v in lengths):
            self.refuse(400, "LENGTH")
        length = int(lengths[0]) if lengths else 0
        if length > BODY:
            self.refuse(413, "TOO LARGE")
        if head.method == "POST" and not lengths:
            self.refuse(411, "LENGTH REQUIRED")
        whole = head.at + length
        while self.unread < whole:
            self.read_on(whole - self.unread)
        body = self.sent[head.at:whole]
        self.sent, self.unread = self.sent[whole:], self.unread - whole
        closes = head.version == "0" or any(n == "connection" and v.lower() == "close" for n, v in head.fields)
        self.answer(head.method, head.target, body, closes or number == REQUESTS)
        if closes or number == REQUESTS:
            self.end = "Budget" if number == REQUESTS else "Done"
            raise Closed

    def answer(self, method, target, body, closes):
        if any(byte > "\x7f" for byte in target.split("?")[0]):
            return self.fault(404, "NO ROUTE", closes)
        super().answer(method, target, body, closes)

    def command(self, user, body, closes):
        said = [tokens_of(line) if len(line) <= BODY else "CL 7 TOOLONG" for line in logical_lines(body)]
        said = [items for items in said if items]
        if len(said) != 1:
            return self.fault(400, "ONE COMMAND" if said else "CL 1 EMPTY", closes)
        line = said[0] if isinstance(said[0], str) else command_of(said[0])
        if re.match(r"C[LM] [0-9]", line):
            return self.fault(400, line, closes)
        super().command(user, line, closes)


def check(c):
    """Each answer is one of the table, and no more is read than may be."""
    for response in c.written:
        head, body = response.split("\r\n\r\n", 1)
        status = int(head.split(" ")[1])
        if status == 200:
            good = "text/plain" in head and body.endswith("END OF LIST\n") or re.fullmatch(r'\{"place":\d+,"reply":"OK [^"]+"\}', body)
        else:
            said = re.fullmatch(r'\{"error":"([^"]+)"\}', body)
            good = said and re.fullmatch(ERRORS[status], said[1]) or status == 409 and re.fullmatch(r'\{"place":\d+,"reply":"NO [^"]+"\}', body)
        assert good and f"Content-Length: {len(body)}\r\n" in head + "\r\n", response
    assert c.unread <= HEAD + BODY and len(c.written) <= REQUESTS


# Drawing connections

class Draws:
    def __init__(self, seed):
        self.of = random.Random(seed)

    def one(self, *choices):
        return self.of.choice(choices)

    def below(self, count):
        return self.of.randrange(count)

    def name(self):
        return "".join(self.of.choice("ABCXYZ") for _ in range(1 + self.below(3)))

    def line(self):
        job = f"SBMJOB CMD(CALL PGM(ECHO)) JOB({self.name()})"
        return self.one(job, job, job + " HOLD(*YES)", f"CRTJOBQ {self.name()}", "WRKSBS", "DSPLOG", "HLDJOBQ QBATCH", "RLSJOBQ QBATCH", "CLRJOBQ QBATCH",
                        "PWRDWNSYS OPTION(*IMMED)" if self.below(8) == 0 else job)

    def byte(self):
        return self.one("'", "(", ")", "/", "*", "/*", "*/", " ", "\t", "\n", "\r\n", "\r", "+\n", "-\n", "\x00", "\x7f", "\xe4", chr(self.below(256)), "A", "9", ":")

    def changed(self, text, times=1):
        """The text with a byte changed, put in, dropped or doubled."""
        for _ in range(times):
            at = self.below(len(text) + 1)
            text = self.one(text[:at] + self.byte() + text[at + 1:], text[:at] + self.byte() + text[at:], text[:at] + text[at + 1:], text[:at] + text[at:at + 4] + text[at:])
        return text

    def body(self):
        line = self.line()
        kind = self.below(12)
        if kind < 3:
            return line
        if kind < 7:
            return self.changed(line, 1 + self.below(2))
        return self.one(line.lower(), line + "\n", line + "\r\n\r\n", "\n" + line, line + "\n" + self.line(), f"/* {line} */", line + " /* x", "", "/* */", " " * self.below(20) + line,
                        line.replace(" ", " +\n   ", 1), line.replace(" ", "-\n ", 1), line + " " * (BODY - len(line) - self.below(2)), "A (" + "(" * (13 + self.below(4)),
                        line + "\n" + "A" * 4000, "A" * self.below(9000), line + ")", line + "(", line + " '", line[:self.below(len(line))], "\n" * self.below(40), line + " +", line + "-")

    def path(self):
        path = self.one("/active", "/subsystems", "/log", "/queues/QGPL/QBATCH", "/users/ann/jobs", "/jobs/1/ANN/A", f"/jobs/{self.below(4)}/ANN/{self.name()}", "/x", "/")
        kind = self.below(8)
        return path + "?" + self.one("", "a=b", "/x", "?") if kind == 0 else self.changed(path) if kind == 1 else path.replace("QGPL", "qgpl") if kind == 2 else path

    def fields(self):
        some = [self.one("Host: x", "Accept: */*", "Connection: keep-alive", "Expect: 100-continue", "A:", "X-Y: \t z ", "Connection: close" if self.below(5) == 0 else "B: c")
                for _ in range(self.below(4))]
        kind = self.below(16)
        if kind == 0:
            some += ["F: g"] * (28 + self.below(8))
        elif kind == 1:
            some.append("L: " + "l" * self.one(100, 4000, 8000, 8092 + self.below(100), 8150 + self.below(30), 9000))
        elif kind == 2:
            some.append(self.one("Transfer-Encoding: chunked", "transfer-encoding: identity", "Transfer-Encodin: x"))
        elif kind == 3:
            some.append(self.one("Connection: Close", "connection:close", "Connection: close, close", "Connection: clos", "Connection : close", "Connection: \xe4"))
        return some

    def length(self, body):
        kind, length = self.below(24), len(body)
        if kind == 0:
            return []
        if kind < 4:
            wrong = self.one(length + 1 + self.below(4), max(0, length - 1 - self.below(4)), 8191, 8192, 8193, "+1", "", " 5 5", f"{length}x", "0000000001", "1" * 9, "1" * 10, -1, "0x1", f"{length:09}", f"{length:010}")
            return [f"Content-Length: {wrong}"]
        if kind == 4:
            return [f"Content-Length: {length}", f"{self.one('Content-Length', 'content-length', 'Content-Length ')}: {self.one(length, length + 1)}"]
        return [f"{self.one('Content-Length', 'Content-Length', 'content-length', 'CONTENT-LENGTH')}:{self.one(' ', '', '  ', chr(9))}{length}"]

    def request(self):
        end = "\n" if self.below(10) == 0 else "\r\n"
        version = self.one("1.1", "1.1", "1.1", "1.1", "1.1", "1.1", "1.0", "1.1" if self.below(3) else self.one("1.2", "2", "1.", "1.11", "0.9", ""))
        fields = self.fields()
        if self.below(2):
            method = "POST" if self.below(12) else self.one("GET", "PUT", "post", "POS", "POST\t", "P(ST", "DELETE", "")
            path, body = f"/users/{self.one('ann', 'ANN', 'Bob', 'x' * 11, '1a') if self.below(8) == 0 else 'ann'}/commands", self.body()
            fields += self.length(body)
        else:
            method = "GET" if self.below(12) else self.one("POST", "HEAD", "get", "GE T", "GET\x00", "OPTIONS", "G")
            path, body = self.path(), self.one("", "", "", "abc")
            fields += self.length(body) if body else []
        self.of.shuffle(fields)
        before = self.one("\r\n", "\n", "\r", "\r\n\r\n", " ") if self.below(16) == 0 else ""
        head = before + f"{method} {path} HTTP/{version}" + end + "".join(f + end for f in fields) + end
        kind = self.below(12)
        if kind == 0:
            head = self.changed(head)
        elif kind == 1 and self.below(3) == 0:
            head = head[:self.below(len(head))]
        return head + body

    def many(self):
        """About as many requests as a connection may have, or more."""
        short = ["GET /x HTTP/1.1\n\n", "PUT /log HTTP/1.1\n\n", "\nGET / HTTP/1.1\r\n\r\n", "GET /x HTTP/1.1\r\nContent-Length: 3\r\n\r\nabc"]
        return "".join(self.one(*short) for _ in range(REQUESTS - 5 + self.below(10))) + self.request()

    def connection(self):
        if self.below(4000) == 0:
            return self.many(), 65536
        sent = "".join(self.request() for _ in range(1 + self.below(5)))
        kind = self.below(8)
        if kind == 0:
            sent = sent[:self.below(len(sent) + 1)]
        elif kind == 1:
            sent += self.one("\r\n", "\n", "G", "\x00", "GET /log HTTP/1.1", "POST")
        elif kind == 2:
            sent = self.changed(sent)
        return sent, self.one(1, 2, 7, 64, 1000, 8191, 65536, 65536)


def escaped(sent):
    text = "".join({"\n": "\\n", "\r": "\\r", "\t": "\\t", "\\": "\\\\", "{": "\\{", "}": "\\x7d"}.get(b) or (b if " " <= b <= "~" else f"\\x{ord(b):02x}") for b in sent)
    return text.replace("\\{", "\\x7b")


def cases(count, seed):
    """The text of the cases, and how many answers of each status and connections of each end they have."""
    draws, out, seen, anew = Draws(seed), [], Counter(), 0
    while len(out) < count:
        sent, piece = draws.connection()
        try:
            c = Nearly(sent, piece).serve()
        except Unknown:
            anew += 1
            continue
        check(c)
        seen.update(response.split(" ", 2)[1] for response in c.written)
        seen[c.end] += 1
        text = escaped(sent)
        assert unescaped(text) == sent
        out.append(f"== {len(out) + 1}\n> pieces {piece}\n> read {text}\n" + shown("".join(c.written)) + f"{c.end}, gate {c.calls} {c.written_calls}\n{c.read} bytes read\n\n")
    return "".join(out), seen, anew


def main(words):
    path = Path(words[1]) if words[:1] == ["--write"] else None
    numbers = [int(word) for word in words[2 if path else 0:]] + [20000, 52][len(words[2 if path else 0:]):]
    text, seen, anew = cases(*numbers)
    print(", ".join(f"{seen[word]} {word}" for word in sorted(seen)) + f"; {anew} drawn anew")
    if path:
        path.write_text(text)
        return 0
    with tempfile.TemporaryDirectory() as folder:
        (Path(folder) / "nearly.txt").write_text(text)
        came = subprocess.run([PROGRAM, "nearly.txt"], cwd=folder, capture_output=True, timeout=600, text=True, errors="replace").stdout
    print(came[-4000:], end="")
    return 0 if came.endswith(f"nearly.txt: {2 * numbers[0]} answers\n") else 1


if __name__ == "__main__":
    sys.exit(main(sys.argv[1:]))
