#!/usr/bin/env python3
"""Writes six files of crates/wm_test_serve/data: connections, and what is answered to them (heads.txt, bodies.txt, answers.txt,
ends.txt, faults.txt, pieces.txt). The answers come from a small model of its own: of requests, of the few commands that the cases
use, and of the history.

    bench/connections.py crates/wm_test_serve/data"""
import re
import sys
from pathlib import Path

PHRASES = {200: "OK", 400: "Bad Request", 404: "Not Found", 405: "Method Not Allowed", 409: "Conflict", 411: "Length Required",
           413: "Payload Too Large", 431: "Request Header Fields Too Large", 501: "Not Implemented", 503: "Service Unavailable"}
GETS = (r"/active", r"/subsystems", r"/log", r"/queues/([^/]+)/([^/]+)", r"/users/([^/]+)/jobs", r"/jobs/([^/]+)/([^/]+)/([^/]+)")
POST = r"/users/([^/]+)/commands"
NAME = re.compile(r"[A-Z$#@][A-Z0-9$#@_]{0,9}$")
SUBMIT = ("SBMJOB RQSDTA('CALL PGM(QGPL/ECHO)') JOB({}) JOBD(QGPL/QDFTJOBD) JOBQ(*JOBD) JOBPTY(*JOBD) RTGDTA('QCMDB') HOLD({}) "
          "SCDDATE(*CURRENT) SCDTIME(*CURRENT)")
NO_COMMANDS = {"SBMJOB JOB('A)": "CL 3 OPENQUOTE 11", "A 'x'(": "CL 8 BADBYTE 5", "CRTJOBQ": "CM 4 MISSING JOBQ"}


class Keeper(Exception):
    pass


class Full(Exception):
    pass


class Machine:
    """The history behind STRSBS QBATCH, with one queue, its jobs, and how often the keeper was called."""

    def __init__(self, limit, fail_apply):
        self.limit, self.fail, self.applies = limit, fail_apply, 1
        self.log, self.jobs, self.queues, self.held, self.down, self.now = [], [], {"QBATCH"}, False, False, 2000
        self.enter("QSYS", "STRSBS SBSD(QGPL/QBATCH)", 1000, "OK subsystem QGPL/QBATCH started")

    def enter(self, user, command, moment, reply):
        self.log.append(f"{len(self.log) + 1:7}   0 {moment:12} {user} {command} -> {reply}")

    def keep(self):
        self.applies += 1
        if self.applies == self.fail:
            raise Keeper

    def settle(self):
        if not self.held and not any(j["status"] == "START" for j in self.jobs):
            for job in self.jobs:
                if job["status"] == "RLS":
                    job["status"] = "START"
                    return

    def change(self, user, line):
        """The canonical text, the reply, and what it does."""
        word, rest = (line.split(None, 1) + [""])[:2]
        if word == "SBMJOB":
            name = re.search(r"JOB\((\w+)\)", rest)[1]
            hold = "HOLD(*YES)" in rest
            job = {"n": len(self.jobs) + 1, "user": user, "name": name, "status": "HLD" if hold else "RLS"}
            return (SUBMIT.format(name, "*YES" if hold else "*JOBD"), f"OK {job['n']:06}/{user}/{name} submitted to QGPL/QBATCH",
                    lambda: self.jobs.append(job))
        if word == "CRTJOBQ":
            known = rest in self.queues
            return f"CRTJOBQ JOBQ(QGPL/{rest})", "NO 01 EXISTS JOBQ" if known else f"OK CRTJOBQ QGPL/{rest}", None if known else lambda: self.queues.add(rest)
        if word in ("HLDJOBQ", "RLSJOBQ"):
            hold = word == "HLDJOBQ"
            if hold == self.held:
                return f"{word} JOBQ(QGPL/QBATCH)", "NO 19 HELDALREADY" if hold else "NO 21 NOTHELD", None
            return f"{word} JOBQ(QGPL/QBATCH)", f"OK queue QGPL/QBATCH {'held' if hold else 'released'}", lambda: setattr(self, "held", hold)
        if word == "CLRJOBQ":
            waiting = [j for j in self.jobs if j["status"] in ("HLD", "RLS")]
            return ("CLRJOBQ JOBQ(QGPL/QBATCH)", f"OK queue QGPL/QBATCH cleared of {len(waiting)} jobs",
                    (lambda: [j.update(status="ENDED CLEARED") for j in waiting]) if waiting else None)
        if word == "STRPJ":
            return "STRPJ SBS(QBATCH) PGM(QGPL/ECHO)", "NO 02 NOOBJECT PJE", None
        if word == "PWRDWNSYS":
            return "PWRDWNSYS OPTION(*IMMED) DELAY(3600)", "OK power down", lambda: setattr(self, "down", True)
        raise ValueError(line)

    def call(self, user, line):
        moment = self.now
        self.now += 1
        if len(self.log) >= self.limit:
            raise Full
        command, reply, act = self.change(user, line)
        if act and not line.startswith("PWRDWNSYS"):
            self.keep()
        self.enter(user, command, moment, reply)
        if act:
            act()
            self.settle()
        return len(self.log), reply

    def read(self, path):
        """The lines of a listing, or a refusal."""
        active = [j for j in self.jobs if j["status"] == "START"]
        parts = path.split("/")[1:]
        if parts[0] == "log":
            return self.log
        if parts[0] == "subsystems":
            return ["SUBSYSTEM  ACTIVE MAXIMUM STATUS", f"{'QBATCH':11}{len(active):6}  *NOMAX ACTIVE"]
        if parts[0] == "active":
            return (["SUBSYSTEM/  USER       NUMBER TYPE STATUS", f"{'QBATCH':12}QSYS              SBS  ACTIVE"]
                    + [f"  {j['name']:10}{j['user']:11}{j['n']:06} BCH  {j['status']}" for j in active])
        if parts[0] == "queues":
            if parts[1:] != ["QGPL", "QBATCH"]:
                return "NO 02 NOOBJECT JOBQ"
            jobs = [j for j in self.jobs if j["status"] in ("HLD", "RLS")]
            return ([f"QUEUE QGPL/QBATCH {'HLD' if self.held else 'RLS'} {len(jobs)} JOBS", "JOB        USER       NUMBER PTY STATUS"]
                    + [f"{j['name']:11}{j['user']:11}{j['n']:06}   5 {j['status']}" for j in jobs])
        if parts[0] == "users":
            return ["JOB        NUMBER STATUS"] + [f"{j['name']:11}{j['n']:06} {j['status']}" for j in self.jobs if j["user"] == parts[1]]
        for j in self.jobs:
            if (j["n"], j["user"], j["name"]) == (int(parts[1]), parts[2], parts[3]):
                return [f"JOB {j['n']:06}/{j['user']}/{j['name']}", "TYPE BCH", "QUEUE QGPL/QBATCH", "PRIORITY 5", f"STATUS {j['status']}"]
        return "NO 09 NOJOB"


def lines_of(body):
    """The lines of a body that aren't empty, joined by their signs; none of the cases has blanks before a sign that count."""
    lines, joined = [], ""
    for line in (body.split("\n") if body else []):
        line = (joined + (line[:-1] if line.endswith("\r") else line)).rstrip(" \t")
        joined = ""
        if line.endswith("+"):
            joined = line[:-1]
            continue
        lines.append(line)
    lines.append(joined)
    return [line for line in lines if re.sub(r"/\*.*?\*/", "", line).strip(" ")]


class Closed(Exception):
    pass


class Connection:
    def __init__(self, sent, limit=1000000, piece=65536, fail_apply=0, fail_read=0, fail_write=0):
        self.machine = Machine(limit, fail_apply)
        self.sent, self.written, self.calls, self.written_calls = sent, [], 0, 0
        self.fail_write, self.fail_read = fail_write, fail_read
        self.end = None

    def respond(self, status, body, closes, kind="application/json", allow=None):
        if self.fail_write == len(self.written) + 1:
            self.end = "WriteFault"
            raise Closed
        head = [f"HTTP/1.1 {status} {PHRASES[status]}", f"Content-Type: {kind}", f"Content-Length: {len(body)}"]
        head += [f"Allow: {allow}"] if allow else []
        head += ["Connection: close"] if closes else []
        self.written.append("".join(line + "\r\n" for line in head) + "\r\n" + body)

    def fault(self, status, word, closes, allow=None):
        self.respond(status, f'{{"error":"{word}"}}', closes, allow=allow)

    def refuse(self, status, word):
        self.fault(status, word, True)
        self.end = "Done"
        raise Closed

    def list(self, path, closes):
        self.calls += 1
        shown = self.machine.read(path)
        if isinstance(shown, str):
            self.fault(409, shown, closes)
        else:
            self.respond(200, "".join(line + "\n" for line in shown + ["END OF LIST"]), closes, "text/plain")
        self.written_calls += 1

    def command(self, user, body, closes):
        lines = lines_of(body)
        if len(lines) != 1:
            return self.fault(400, "ONE COMMAND" if lines else "CL 1 EMPTY", closes)
        line = lines[0]
        if len(line) > 8192:
            return self.fault(400, "CL 7 TOOLONG", closes)
        if line in NO_COMMANDS:
            return self.fault(400, NO_COMMANDS[line], closes)
        if line == "WRKSBS":
            return self.list("/subsystems", closes)
        if line.startswith("DSPJOB"):
            return self.list("/jobs/0/NO/NO", closes)
        if line == "DSPLOG":
            return self.list("/log", closes)
        self.calls += 1
        try:
            place, reply = self.machine.call(user, line)
        except Keeper:
            self.fault(503, "KEEPERFAULT", closes)
        except Full:
            self.fault(503, f"LOGFULL {self.machine.limit}", closes)
        else:
            down = reply == "OK power down"
            self.respond(200 if reply.startswith("OK") else 409, f'{{"place":{place},"reply":"{reply}"}}', closes or down)
            if down:
                self.written_calls += 1
                self.end = "PowerDown"
                raise Closed
        self.written_calls += 1

    def answer(self, method, target, body, closes):
        path = target.split("?")[0]
        named = re.fullmatch(POST, path)
        if named:
            user = named[1].upper()
            if not NAME.match(user):
                return self.fault(404, "NO ROUTE", closes)
            if method != "POST":
                return self.fault(405, "METHOD", closes, "POST")
            return self.command(user, body, closes)
        for pattern in GETS:
            found = re.fullmatch(pattern, path)
            if found:
                parts = [p.upper() for p in found.groups()]
                number = [parts.pop(0)] if path.startswith("/jobs/") else []
                if not all(NAME.match(p) for p in parts) or any(not re.fullmatch(r"[0-9]{1,6}", n) or int(n) == 0 for n in number):
                    return self.fault(404, "NO ROUTE", closes)
                if method != "GET":
                    return self.fault(405, "METHOD", closes, "GET")
                return self.list("/" + "/".join([path.split("/")[1]] + number + parts), closes)
        return self.fault(404, "NO ROUTE", closes)

    def head(self):
        """The head that the bytes begin with, of LF or CR LF lines. A byte that no head has is told by the case."""
        text = self.sent[:8192]
        at = 0
        while text[at:at + 1] == "\n" or text[at:at + 2] == "\r\n":
            at += 1 if text[at] == "\n" else 2
        lines, start = [], at
        while True:
            end = text.find("\n", start)
            if end < 0:
                return (431, lines, text[start:]) if len(self.sent) >= 8192 else (0, lines, text[start:])
            line = text[start:end].removesuffix("\r")
            start = end + 1
            if line == "":
                break
            lines.append(line)
            if len(lines) > 33:
                return (431, lines, None)
        self.len = start
        return (200, lines, None)

    def request(self, number):
        status, lines, rest = self.head()
        good = [re.fullmatch(r"[A-Za-z]+ [!-~]+ HTTP/1\.[01]", lines[0])] if lines else []
        good += [re.fullmatch(r"[A-Za-z-]+:[ -~\t]*", line) for line in (lines or [])[1:]]
        if not all(good) or (rest and not lines and not re.fullmatch(r"[A-Za-z]+( [!-~]*( H?T?T?P?/?1?\.?[01]?\r?)?)?|\r", rest)):
            self.refuse(400, "HEAD")
        if status == 431:
            self.refuse(431, "HEAD TOO LARGE")
        if status == 0:
            self.end = "Done" if not self.sent else "CutShort"
            raise Closed
        method, target, version = lines[0].split(" ")
        fields = [(n.lower(), v.strip(" \t")) for n, v in (line.split(":", 1) for line in lines[1:])]
        lengths = [v for n, v in fields if n == "content-length"]
        if any(n == "transfer-encoding" for n, _ in fields):
            self.refuse(501, "TRANSFER ENCODING")
        if len(lengths) > 1 or any(not re.fullmatch("[0-9]{1,9}", v) for v in lengths):
            self.refuse(400, "LENGTH")
        length = int(lengths[0]) if lengths else 0
        if length > 8192:
            self.refuse(413, "TOO LARGE")
        if method == "POST" and not lengths:
            self.refuse(411, "LENGTH REQUIRED")
        if len(self.sent) < self.len + length:
            self.end = "CutShort"
            raise Closed
        body = self.sent[self.len:self.len + length]
        self.sent = self.sent[self.len + length:]
        closes = version == "HTTP/1.0" or any(n == "connection" and v.lower() == "close" for n, v in fields)
        self.answer(method, target, body, closes or number == 10000)
        if number == 10000:
            self.end = "Budget"
            raise Closed
        if closes:
            self.end = "Done"
            raise Closed

    def serve(self):
        number = 1
        try:
            while True:
                self.request(number)
                number += 1
        except Closed:
            return self


def unescaped(text):
    text = re.sub(r"\{(\d+) ([^}]*)\}", lambda m: m[2] * int(m[1]), text)
    marks = {"n": "\n", "r": "\r", "t": "\t"}
    return re.sub(r"\\(x[0-9a-f]{2}|.)", lambda m: chr(int(m[1][1:], 16)) if len(m[1]) == 3 else marks.get(m[1], m[1]), text)


def shown(text):
    lines = text.split("\n")
    return "".join(line.removesuffix("\r") + "\\r\n" if line.endswith("\r") and i + 1 < len(lines) else (line + "\n" if line else "")
                   for i, line in enumerate(lines))


class File:
    def __init__(self, folder, name):
        self.path, self.out, self.settings, self.said = Path(folder) / name, [], {}, {}

    def case(self, name, **settings):
        self.out.append(f"{chr(10) if self.out else ''}== {name}\n")
        self.settings = {}
        for key, value in settings.items():
            self.out.append(f"> {key.replace('_', '-')} {value}\n")
            self.settings[{"pieces": "piece"}.get(key, key)] = value

    def came(self, text):
        known = {k: v for k, v in self.settings.items() if k != "short"}
        return Connection(unescaped(text), **known).serve()

    def tell(self, c, text):
        self.out.append(text)
        self.out.append(f"{c.end}, gate {c.calls} {c.written_calls}\n")

    def serve(self, text, end=None):
        c = self.came(text)
        self.out.append(f"> serve {text}\n" if text else "> serve\n")
        self.tell(c, shown("".join(c.written)))
        if end and c.end != end:
            raise SystemExit(f"{self.path}: {text}: {c.end} and not {end}")

    def count(self, last, text, end=None):
        c = self.came(text)
        whole = "".join(c.written)
        self.out.append(f"> count {last} {text}\n{whole.count('HTTP/1.1 ')} responses, {len(whole)} bytes\n")
        self.tell(c, shown(whole[max(0, len(whole) - last):]))
        if end and c.end != end:
            raise SystemExit(f"{self.path}: {text}: {c.end} and not {end}")

    def told(self, text, written, end, calls=0, done=0):
        """What a fault of reading or writing leaves, told by the case."""
        self.out.append(f"> serve {text}\n{shown(unescaped(written))}{end}, gate {calls} {done}\n")

    def close(self):
        self.path.write_text("".join(self.out))


def get(path="/subsystems", *fields, version="1.1"):
    return f"GET {path} HTTP/{version}\\r\\n" + "".join(f + "\\r\\n" for f in fields) + "\\r\\n"


def posted(body, *fields, user="ann", version="1.1", method="POST"):
    return (f"{method} /users/{user}/commands HTTP/{version}\\r\\n" + "".join(f + "\\r\\n" for f in fields)
            + f"Content-Length: {len(unescaped(body))}\\r\\n\\r\\n{body}")


def job(name, hold=False):
    return f"SBMJOB CMD(CALL PGM(ECHO)) JOB({name})" + (" HOLD(*YES)" if hold else "")


def heads(folder):
    f = File(folder, "heads.txt")
    f.case("Nothing is sent")
    f.serve("", "Done")
    f.case("A head is cut off")
    for text in ("G", "GET", "GET ", "GET /", "GET /log", "GET /log H", "GET /log HTTP/1.1", "GET /log HTTP/1.1\\r", "GET /log HTTP/1.1\\r\\n",
                 "GET /log HTTP/1.1\\r\\nA: b", "GET /log HTTP/1.1\\r\\nA: b\\r\\n", "GET /log HTTP/1.1\\r\\nA: b\\r\\n\\r", "\\r\\n", "\\n"):
        f.serve(text, "CutShort")
    f.serve(get() + "G", "CutShort")
    f.serve(get() + "\\r\\n", "CutShort")
    f.case("No heads")
    for text in ("\\x00", "GET /log HTTP/1.2\\r\\n\\r\\n", "GET /log\\r\\n", get("/log", "A b: c"), get("/log", "A : b"), get() + "\\x00" + get()):
        f.serve(text, "Done")
    f.case("Line feeds alone, and empty lines before")
    f.serve("GET /subsystems HTTP/1.1\\nHost: x\\n\\n", "Done")
    f.serve("\\r\\n\\n" + get(), "Done")
    f.case("Fields")
    f.serve(get("/subsystems", *["A: b"] * 32), "Done")
    f.serve(get("/subsystems", *["A: b"] * 33), "Done")
    f.serve("GET /subsystems HTTP/1.1\\r\\n{33 A: b\\r\\n}", "Done")
    f.serve("GET /subsystems HTTP/1.1\\r\\n{33 A: b\\r\\n}A b", "Done")
    f.serve("GET /subsystems HTTP/1.1\\r\\n{32 A: b\\r\\n}A b\\r\\n", "Done")
    f.serve("GET /subsystems HTTP/1.1\\r\\n{32 A: b\\r\\n}", "CutShort")
    f.case("Heads of 8,191 to 8,193 bytes")
    plain = len(unescaped(get("/subsystems", "A: ")))
    for size in (8191, 8192, 8193):
        f.serve(get("/subsystems", "A: {%d b}" % (size - plain)), "Done")
    f.serve(get("/subsystems", "A: {%d b}" % (8192 - plain)) + get(), "Done")
    f.serve("GET /{8200 a}", "Done")
    f.case("Versions and Connection")
    f.serve(get(version="1.0") + get(), "Done")
    for value in ("close", "CLOSE", "Close", "\\t close \\t"):
        f.serve(get("/subsystems", f"Connection: {value}") + get(), "Done")
    f.serve(get("/subsystems", "connection: close") + get(), "Done")
    f.serve(get("/subsystems", "Connection: keep-alive", "Connection: close") + get(), "Done")
    for value in ("keep-alive", "keep-alive, close", "close, close", "closed", "clos", ""):
        f.serve(get("/subsystems", f"Connection: {value}") + get(), "Done")
    f.serve(get(version="1.0").replace("\\r\\n\\r\\n", "\\r\\nConnection: keep-alive\\r\\n\\r\\n") + get(), "Done")
    f.case("Fields without an effect")
    f.serve(get("/subsystems", "Host: x", "Expect: 100-continue", "Request-Key: 1"), "Done")
    f.serve(posted("WRKSBS", "Expect: 100-continue"), "Done")
    f.close()


def bodies(folder):
    f = File(folder, "bodies.txt")
    f.case("Lengths")
    for value in ("", "abc", "+5", "-1", "5 5", "5,5", "1234567890", "0000000005"):
        f.serve(f"POST /users/ann/commands HTTP/1.1\\r\\nContent-Length: {value}\\r\\n\\r\\nWRKSB", "Done")
    f.serve("POST /users/ann/commands HTTP/1.1\\r\\nContent-Length: 000000006\\r\\n\\r\\nWRKSBS", "Done")
    f.serve("POST /users/ann/commands HTTP/1.1\\r\\ncontent-length: 6\\r\\n\\r\\nWRKSBS" + get(), "Done")
    f.serve("POST /users/ann/commands HTTP/1.1\\r\\nContent-Length: 6\\r\\nContent-Length: 6\\r\\n\\r\\nWRKSBS", "Done")
    f.serve("POST /users/ann/commands HTTP/1.1\\r\\n\\r\\nWRKSBS", "Done")
    for size in (8193, 9000, 999999999):
        f.serve(f"POST /users/ann/commands HTTP/1.1\\r\\nContent-Length: {size}\\r\\n\\r\\nWRKSBS", "Done")
    f.serve("POST /users/ann/commands HTTP/1.1\\r\\nContent-Length: 0\\r\\n\\r\\n" + get(), "Done")
    f.serve("POST /users/ann/commands HTTP/1.1\\r\\nContent-Length: 8192\\r\\n\\r\\nWRKSBS{8186  }" + get(), "Done")
    f.serve("POST /users/ann/commands HTTP/1.1\\r\\nContent-Length: 8192\\r\\n\\r\\nWRKSBS{8185  }", "CutShort")
    f.case("A body is cut off")
    f.serve("POST /users/ann/commands HTTP/1.1\\r\\nContent-Length: 5\\r\\n\\r\\nabc", "CutShort")
    f.serve("POST /users/ann/commands HTTP/1.1\\r\\nContent-Length: 5\\r\\n\\r\\n", "CutShort")
    f.serve(posted(job("A")) + "POST /users/ann/commands HTTP/1.1\\r\\nContent-Length: 5\\r\\n\\r\\nabc", "CutShort")
    f.case("Transfer-Encoding goes before a length")
    f.serve("POST /users/ann/commands HTTP/1.1\\r\\nTransfer-Encoding: chunked\\r\\nContent-Length: abc\\r\\n\\r\\n", "Done")
    f.serve("POST /users/ann/commands HTTP/1.1\\r\\nContent-Length: abc\\r\\nTransfer-Encoding: x\\r\\n\\r\\n", "Done")
    f.serve("POST /users/ann/commands HTTP/1.1\\r\\nContent-Length: 9000\\r\\nTransfer-Encoding: x\\r\\n\\r\\n", "Done")
    f.serve(get("/subsystems", "TRANSFER-ENCODING: identity"), "Done")
    f.case("One command")
    for body in ("CRTJOBQ A\\nCRTJOBQ B", "CRTJOBQ A\\r\\nCRTJOBQ B\\r\\n", "CRTJOBQ A\\n\\n/* x */\\nCRTJOBQ B\\nCRTJOBQ C", "WRKSBS\\nWRKSBS",
                 "SBMJOB JOB('A)\\nWRKSBS", "WRKSBS\\nSBMJOB JOB('A)", "CRTJOBQ\\nCRTJOBQ"):
        f.serve(posted(body) + posted("DSPLOG"), "Done")
    f.case("No command")
    for body in ("/* */", "", "\\n", "\\r\\n\\r\\n", "   ", " /* a */\\n\\n/* b */ "):
        f.serve(posted(body), "Done")
    f.case("One command among empty lines")
    for body in ("CRTJOBQ A\\n", "\\nCRTJOBQ A", "/* one */\\r\\nCRTJOBQ A\\r\\n\\r\\n", "CRTJOBQ +\\nA"):
        f.serve(posted(body), "Done")
    f.case("Faulty lines")
    for body in NO_COMMANDS:
        f.serve(posted(body), "Done")
    f.case("A command about an entry that there isn't")
    f.serve(posted("STRPJ SBS(QBATCH) PGM(ECHO)") + get("/log"), "Done")
    f.case("A GET's body is dropped")
    f.serve(f"GET /subsystems HTTP/1.1\\r\\nContent-Length: 9\\r\\n\\r\\nCRTJOBQ A" + get("/log"), "Done")
    f.case("The body is read before the route is looked for")
    f.serve("POST /x HTTP/1.1\\r\\nContent-Length: 5\\r\\n\\r\\nabc", "CutShort")
    f.serve("POST /x HTTP/1.1\\r\\nContent-Length: 5\\r\\n\\r\\nabcde" + get(), "Done")
    f.serve("POST /x HTTP/1.1\\r\\nContent-Length: 9000\\r\\n\\r\\n", "Done")
    f.serve("POST /x HTTP/1.1\\r\\n\\r\\n", "Done")
    f.close()


def answers(folder):
    f = File(folder, "answers.txt")
    f.case("A job is submitted")
    f.serve("POST /users/ann/commands HTTP/1.1\\r\\nHost: x\\r\\nContent-Length: 33\\r\\n\\r\\n" + job("A"), "Done")
    f.case("Methods and routes")
    f.serve("POST /active HTTP/1.1\\r\\nContent-Length: 0\\r\\n\\r\\n", "Done")
    f.serve(get("/x"), "Done")
    for path in ("/", "/active/", "/Active", "/jobs/0/ANN/X", "/jobs/1000000/ANN/X", "/jobs/1/ANN", "/jobs/1/ANN/X/Y", "/jobs/x/ANN/X", "/users//jobs",
                 "/users/1ann/jobs", "/users/abcdefghijk/jobs", "/queues/QGPL", "/queues/QGPL/A-B", "/users/%41nn/jobs", "/users/ann/commands/x"):
        f.serve(get(path), "Done")
    for method in ("PUT", "DELETE", "HEAD", "get", "OPTIONS"):
        f.serve(f"{method} /subsystems HTTP/1.1\\r\\n\\r\\n", "Done")
    for path in ("/users/ann/commands", "/users/ann/commands?x"):
        f.serve(get(path), "Done")
    f.serve(get("/users/1ann/commands"), "Done")
    f.serve("POST /users/1ann/commands HTTP/1.1\\r\\nContent-Length: 0\\r\\n\\r\\n", "Done")
    f.serve("POST /jobs/0/ANN/X HTTP/1.1\\r\\nContent-Length: 0\\r\\n\\r\\n", "Done")
    f.case("Paths with a query, and names in lower case")
    for path in ("/subsystems?", "/subsystems?a=b", "/subsystems?/x", "/queues/qgpl/qbatch", "/queues/QGPL/qbatch?x", "/users/Ann/jobs", "/jobs/000001/ann/a"):
        f.serve(posted(job("A")) + get(path), "Done")
    f.case("Listings")
    jobs = posted(job("A")) + posted(job("B", True)) + posted(job("C"), user="bob")
    for path in ("/active", "/subsystems", "/queues/QGPL/QBATCH", "/users/ANN/jobs", "/users/BOB/jobs", "/jobs/1/ANN/A", "/jobs/2/ANN/B", "/log"):
        f.serve(jobs + get(path), "Done")
    f.case("Refused listings")
    f.serve(get("/jobs/1/ANN/A") + get("/queues/QGPL/NONE"), "Done")
    f.case("A reading command in a body")
    f.serve(posted("WRKSBS") + posted("DSPLOG") + posted("DSPJOB JOB(A)"), "Done")
    f.case("What is said of replies")
    f.serve(posted("CRTJOBQ A") + posted("CRTJOBQ A") + posted("HLDJOBQ QBATCH") + posted("HLDJOBQ QBATCH") + posted(job("A")) + posted(job("B"))
            + posted("CLRJOBQ QBATCH") + posted("CLRJOBQ QBATCH") + posted("RLSJOBQ QBATCH") + get("/log"), "Done")
    f.case("Requests one behind another")
    f.serve("".join(get(path) for path in ("/subsystems", "/active", "/x", "/log")), "Done")
    f.serve(posted(job("A")) + get("/users/ann/jobs") + posted(job("B")) + get("/users/ann/jobs"), "Done")
    f.serve(get() + posted("WRKSBS", "Connection: close") + posted("CRTJOBQ A"), "Done")
    f.case("Errors leave the connection open")
    f.serve(get("/x") + posted("SBMJOB JOB('A)") + posted("CRTJOBQ QBATCH") + get("/jobs/1/ANN/A") + get("/log"), "Done")
    f.close()


def ends(folder):
    f = File(folder, "ends.txt")
    f.case("The power goes down")
    f.serve(posted("PWRDWNSYS OPTION(*IMMED)"), "PowerDown")
    f.serve(posted(job("A")) + posted("PWRDWNSYS OPTION(*IMMED)") + posted(job("B")) + get("/log"), "PowerDown")
    f.serve(posted("PWRDWNSYS OPTION(*IMMED)", "Connection: close"), "PowerDown")
    f.serve(posted("PWRDWNSYS OPTION(*IMMED)\\nWRKSBS"), "Done")
    f.case("As many requests as a connection may have")
    f.count(200, "{9999 GET /x HTTP/1.1\\r\\n\\r\\n}", "Done")
    f.count(200, "{10000 GET /x HTTP/1.1\\r\\n\\r\\n}", "Budget")
    f.count(200, "{10001 GET /x HTTP/1.1\\r\\n\\r\\n}", "Budget")
    f.count(200, "{9999 GET /x HTTP/1.1\\r\\n\\r\\n}" + get(version="1.0"), "Budget")
    f.count(300, "{9999 GET /x HTTP/1.1\\r\\n\\r\\n}" + posted("PWRDWNSYS OPTION(*IMMED)"), "PowerDown")
    f.count(200, "{9998 GET /x HTTP/1.1\\r\\n\\r\\n}" + get(version="1.0"), "Done")
    f.count(200, "{9999 GET /x HTTP/1.1\\r\\n\\r\\n}G", "CutShort")
    f.close()


def faults(folder):
    f = File(folder, "faults.txt")
    f.case("The keeper fails", fail_apply=3)
    f.serve(posted(job("A")) + posted(job("B")) + posted(job("B")) + get("/log"), "Done")
    f.case("The log is full", limit=2)
    f.serve(posted(job("A")) + posted(job("B")) + posted("CRTJOBQ QBATCH") + get("/log"), "Done")
    f.case("The first read fails", fail_read=1)
    f.told(get(), "", "ReadFault")
    answered = "".join(Connection(unescaped(get())).serve().written).replace("\r", "\\r").replace("\n", "\\n")
    f.case("The second read fails", fail_read=2)
    f.told(get(), answered, "ReadFault", 1, 1)
    f.case("A read fails in a head", fail_read=2, pieces=8)
    f.told(get(), "", "ReadFault")
    f.case("A read fails in a body", fail_read=2, pieces=len(unescaped(posted(job("A")))) - 5)
    f.told(posted(job("A")), "", "ReadFault")
    f.case("The first write fails", fail_write=1)
    f.told(get(), "", "WriteFault", 1, 0)
    f.told(get("/x"), "", "WriteFault", 0, 0)
    f.case("The second write fails", fail_write=2)
    f.told(get() + get() + get(), answered, "WriteFault", 2, 1)
    f.case("A write fails in a response", fail_write=3, short=10)
    f.told(get(), "HTTP/1.1 200 OK\\r\\nCon", "WriteFault", 1, 0)
    f.close()


def pieces(folder):
    f = File(folder, "pieces.txt")
    several = get("/subsystems") + "\\r\\n" + posted(job("A")) + get("/x") + posted("CRTJOBQ A\\nCRTJOBQ B") + get("/log", "Connection: close")
    for piece in (1, 2, 3, 7, 16, 100, 8191):
        f.case(f"Reads of at most {piece} bytes", pieces=piece)
        f.serve(several, "Done")
        f.serve(posted("PWRDWNSYS OPTION(*IMMED)"), "PowerDown")
        f.serve("GET /subsystems HTTP/1.1\\r\\n{33 A: b\\r\\n}", "Done")
        f.serve(get() + "GET /log HT", "CutShort")
    f.case("Writes of at most a byte", short=1)
    f.serve(several, "Done")
    f.case("A body in single bytes", pieces=1)
    f.serve("POST /users/ann/commands HTTP/1.1\\r\\nContent-Length: 8192\\r\\n\\r\\nWRKSBS{8186  }" + get(), "Done")
    f.case("A head that is cut at each byte")
    whole = unescaped(get("/log", "Host: x"))
    for at in range(1, len(whole)):
        f.out.append(f"> pieces {at}\n")
        f.serve(get("/log", "Host: x"), "Done")
    f.close()


if __name__ == "__main__":
    for part in (heads, bodies, answers, ends, faults, pieces):
        part(sys.argv[1])
