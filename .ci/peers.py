#!/usr/bin/env python3
"""Peers of a server on this machine, for .ci/serve and bench/serve.sh: peers.py WORD PORT .., by the functions below.

It ends with status 1, and a line that says why, where an answer isn't as it should be."""
import json
import os
import socket
import statistics
import struct
import sys
import threading
import time


def fail(why):
    print(why)
    sys.stdout.flush()
    os._exit(1)


class Connection:
    """A connection that is kept open over its requests."""

    def __init__(self, port, timeout=60):
        self.socket = socket.create_connection(("127.0.0.1", port), timeout)
        self.socket.setsockopt(socket.IPPROTO_TCP, socket.TCP_NODELAY, 1)
        self.unread = b""

    def more(self):
        piece = self.socket.recv(65536)
        if not piece:
            raise ConnectionError("the server closed the connection")
        self.unread += piece

    def answer(self):
        """The status and the body of the next response."""
        while b"\r\n\r\n" not in self.unread:
            self.more()
        head, self.unread = self.unread.split(b"\r\n\r\n", 1)
        lines = head.decode().split("\r\n")
        fields = dict(line.lower().split(": ", 1) for line in lines[1:])
        length = int(fields["content-length"])
        while len(self.unread) < length:
            self.more()
        body, self.unread = self.unread[:length], self.unread[length:]
        return int(lines[0].split()[1]), body.decode()

    def get(self, path):
        self.socket.sendall(f"GET {path} HTTP/1.1\r\nHost: localhost\r\n\r\n".encode())
        return self.answer()

    def command(self, line, user="QUSER"):
        self.socket.sendall(request(line, user))
        return self.answer()

    def do(self, line):
        """A command that is to be accepted, and its reply."""
        status, body = self.command(line)
        if status != 200:
            fail(f"{line}: {status} {body}")
        return json.loads(body)["reply"]


def request(line, user="QUSER"):
    body = line.encode()
    return f"POST /users/{user}/commands HTTP/1.1\r\nHost: localhost\r\nContent-Length: {len(body)}\r\n\r\n".encode() + body


def free_port():
    """A port at which nobody listens."""
    with socket.create_server(("127.0.0.1", 0)) as it:
        return it.getsockname()[1]


def submit(program, text, queue="WIDE", more=""):
    """The line that submits a job with this text for a shell."""
    return f"SBMJOB CMD(CALL PGM({program}) PARM('-c' '{text}')) JOB(A) JOBQ({queue}){more}"


def wide(port, width="*NOMAX"):
    """Makes and starts a subsystem that takes so many jobs at once, with two shells as programs."""
    it = Connection(port)
    for line in ("CRTPGMREF PGM(SH) PATH('/bin/sh')", "CRTPGMREF PGM(BASH) PATH('/bin/bash')", "CRTJOBQ WIDE",
                 "CRTSBSD WIDE MAXJOBS(*NOMAX)", f"ADDJOBQE SBSD(WIDE) JOBQ(WIDE) MAXACT({width})",
                 "ADDRTGE SBSD(WIDE) SEQNBR(10) CMPVAL(*ANY) PGM(QSYS/QCMD) CLS(QBATCH)", "STRSBS WIDE"):
        it.do(line)


def load(port, connections, jobs, text, hold=""):
    """Submits jobs on so many connections at once, each with a name of its own in place of NAME in the text. It prints a line
    for each that was answered 200: its name, and its job's number and user. Behind the first other answer, or the end of its
    connection, a connection submits no more; which it was is said on standard error."""
    lock = threading.Lock()
    more = " HOLD(*YES)" if hold else ""

    def one(at):
        it = Connection(port)
        for turn in range(jobs):
            name = f"{at}.{turn}"
            try:
                status, body = it.command(submit("SH", text.replace("NAME", name), more=more))
            except OSError as e:
                print(f"{name}: {e}", file=sys.stderr)
                return
            if status != 200:
                print(f"{name}: {status} {body}", file=sys.stderr)
                return
            with lock:
                print(name, json.loads(body)["reply"].split()[1], flush=True)

    threads = [threading.Thread(target=one, args=(at,)) for at in range(connections)]
    for it in threads:
        it.start()
    for it in threads:
        it.join()


def jobs_of(port, user="QUSER"):
    """How each of a user's jobs stands, by its number."""
    status, body = Connection(port).get(f"/users/{user}/jobs")
    if status != 200:
        fail(f"jobs: {status} {body}")
    return {line[11:17]: line[18:] for line in body.split("\n")[1:-2]}


def settled(port, answered, ran):
    """Waits until no job of the user waits or runs any more. Then each job that was answered is there, each that has completed
    ran once, none ran twice, and none ran whose submit the server doesn't know."""
    until = time.time() + 60
    while True:
        jobs = jobs_of(port)
        if all(it.startswith("ENDED") for it in jobs.values()):
            break
        if time.time() > until:
            fail(f"jobs that haven't ended: {[it for it in jobs.items() if not it[1].startswith('ENDED')][:5]}")
        time.sleep(0.1)
    runs = {}
    with open(ran, encoding="utf-8") as it:
        for name in it.read().split():
            runs[name] = runs.get(name, 0) + 1
    twice = [name for name, count in runs.items() if count > 1]
    lost, silent = [], []
    ends = {}
    with open(answered, encoding="utf-8") as it:
        for line in it:
            name, job = line.split()
            end = jobs.get(job[:6])
            if end is None:
                lost.append(name)
                continue
            ends[end] = ends.get(end, 0) + 1
            if end == "ENDED COMPLETED" and name not in runs:
                silent.append(name)
    if lost or twice or silent:
        fail(f"lost {lost[:5]}, twice {twice[:5]}, completed and never ran {silent[:5]}")
    print(f"{sum(ends.values())} answered, {len(runs)} ran, {ends}")


def silent(port, count, seconds, text=""):
    """So many peers that send this and nothing more, for so long or until the server lets them go. It says when all are there."""
    peers = [socket.create_connection(("127.0.0.1", port)) for _ in range(count)]
    for it in peers:
        it.sendall(text.encode().decode("unicode_escape").encode())
    print("there", flush=True)
    time.sleep(seconds)


def leave(port, count):
    """So many peers that connect and leave, one after another: without a word, in the middle of a head, and behind ten requests of
    which they take no answer, by turns; every fifth leaves in a way that resets the connection."""
    for at in range(count):
        with socket.create_connection(("127.0.0.1", port)) as it:
            if at % 5 == 0:
                it.setsockopt(socket.SOL_SOCKET, socket.SO_LINGER, struct.pack("ii", 1, 0))
            it.sendall((b"", b"GET /act", b"GET /log HTTP/1.1\r\n\r\n" * 10)[at % 3])


def flood(port):
    """A peer that says that it sends 10 MB, and does. What it is answered is printed, or that it was cut off."""
    it = Connection(port)
    try:
        it.socket.sendall(b"POST /users/QUSER/commands HTTP/1.1\r\nContent-Length: 10000000\r\n\r\n")
        for _ in range(160):
            it.socket.sendall(b"x" * 65536)
    except OSError:
        pass
    try:
        print(it.answer()[0])
    except OSError as e:
        print(f"cut off: {e}")


def deaf(port):
    """A peer that asks for many listings, and takes none of them until the server lets it go. It says when it can ask for no
    more."""
    it = Connection(port, timeout=2)
    try:
        while True:
            it.socket.sendall(b"GET /log HTTP/1.1\r\n\r\n" * 100)
    except OSError:
        print("there", flush=True)
    time.sleep(60)


def answered(port, seconds, most):
    """Asks for a listing by new connections, one after another, for so long. None may take longer than `most` seconds."""
    until = time.time() + seconds
    worst, count = 0, 0
    while time.time() < until:
        begun = time.time()
        status, body = Connection(port).get("/subsystems")
        if status != 200 or not body.endswith("END OF LIST\n"):
            fail(f"a listing: {status} {body}")
        worst = max(worst, time.time() - begun)
        count += 1
        time.sleep(0.01)
    if worst > most:
        fail(f"an answer took {worst:.2f} s")
    print(f"{count} answers, the slowest in {1000 * worst:.1f} ms")


def latency(port, count, stamps):
    """How long behind its response a job's program reads the clock, and how long it takes where this program starts it itself:
    the medians of so many, by turns. It fails where the difference isn't below two milliseconds."""
    it = Connection(port)
    text = f"echo $EPOCHREALTIME >>{stamps}"
    open(stamps, "w", encoding="utf-8").close()

    def stamp(at):
        until = time.time() + 10
        while time.time() < until:
            with open(stamps, encoding="utf-8") as file:
                lines = file.read().split("\n")
            if len(lines) > at + 1:
                return float(lines[at].replace(",", "."))
            time.sleep(0.001)
        fail("a job that doesn't start")

    served, own = [], []
    for at in range(count):
        it.do(submit("BASH", text))
        begun = time.time()
        served.append(stamp(2 * at) - begun)
        time.sleep(0.01)
        begun = time.time()
        child = os.posix_spawn("/bin/bash", ["bash", "-c", text], os.environ)
        own.append(stamp(2 * at + 1) - begun)
        os.waitpid(child, 0)
        time.sleep(0.01)
    served, own = 1000 * statistics.median(served), 1000 * statistics.median(own)
    print(f"the median of {count}: {served:.2f} ms behind the response, {own:.2f} ms where it is started by itself")
    if served - own > 2:
        fail("a job starts more than 2 ms behind its response")


def main():
    words = [int(it) if it.isdigit() else it for it in sys.argv[2:]]
    calls = {"wide": wide, "load": load, "settled": settled, "silent": silent, "leave": leave, "flood": flood,
             "deaf": deaf, "answered": answered, "latency": latency}
    if sys.argv[1] == "port":
        print(free_port())
    else:
        calls[sys.argv[1]](*words)


if __name__ == "__main__":
    main()
