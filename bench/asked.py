#!/usr/bin/env python3
"""Asks a server on this machine, for bench/serve.sh, each connection by a process of its own.

    asked.py get PORT CONNECTIONS SECONDS PATH   how many answers a second come to GET PATH
    asked.py each PORT CONNECTIONS SECONDS PATH  the same with a connection for each request
    asked.py post PORT CONNECTIONS SECONDS       how many answers a second come to a held SBMJOB
    asked.py jobs PORT JOBS WIDTH                how many jobs of /bin/true a second, so many at once, from the release of their
                                                 queue until the last has ended
    asked.py spawn JOBS WIDTH                    the same by a loop of posix_spawn of one thread"""
import os
import re
import socket
import sys
import time

LENGTH = re.compile(rb"\r\nContent-Length: (\d+)\r\n", re.I)


def connect(port):
    it = socket.create_connection(("127.0.0.1", port))
    it.setsockopt(socket.IPPROTO_TCP, socket.TCP_NODELAY, 1)
    return it


def answer(it):
    """The next response, of which nothing is behind it."""
    got = it.recv(65536)
    while True:
        head, found, body = got.partition(b"\r\n\r\n")
        if found and len(body) >= int(LENGTH.search(head + b"\r\n")[1]):
            return got
        more = it.recv(65536)
        if not more:
            raise ConnectionError("the server closed the connection")
        got += more


def ask(port, request, until):
    """How often it is answered on one connection, which is made anew behind 9,000 answers."""
    count = 0
    while time.time() < until:
        with connect(port) as it:
            for _ in range(180):
                for _ in range(50):
                    it.sendall(request)
                    got = answer(it)
                count += 50
                if time.time() >= until:
                    break
            if not got.startswith(b"HTTP/1.1 200"):
                sys.exit(f"not accepted: {got[:200]}")
    return count


def ask_anew(port, request, until):
    """How often it is answered, on a connection for each request."""
    count = 0
    while time.time() < until:
        with connect(port) as it:
            it.sendall(request)
            answer(it)
        count += 1
    return count


def rate(asks, port, connections, seconds, request):
    begun = time.time()
    pipes = []
    for _ in range(connections):
        out, into = os.pipe()
        if os.fork() == 0:
            os.write(into, str(asks(port, request, begun + seconds)).encode())
            os._exit(0)
        os.close(into)
        pipes.append(out)
    counts = [int(os.read(out, 100)) for out in pipes]
    print(round(sum(counts) / (time.time() - begun)))


def post(line):
    body = line.encode()
    return b"POST /users/ANN/commands HTTP/1.1\r\nHost: localhost\r\nContent-Length: %d\r\n\r\n" % len(body) + body


def get(path):
    return b"GET %s HTTP/1.1\r\nHost: localhost\r\n\r\n" % path.encode()


def jobs(port, count, width):
    it = connect(port)

    def do(request):
        it.sendall(request)
        return answer(it)

    for line in ("CRTPGMREF PGM(TRUE) PATH('/bin/true')", "CRTJOBQ WORK", "CRTSBSD WORK MAXJOBS(*NOMAX)", f"ADDJOBQE SBSD(WORK) JOBQ(WORK) MAXACT({width})",
                 "ADDRTGE SBSD(WORK) SEQNBR(9999) CMPVAL(*ANY) PGM(QSYS/QCMD) CLS(QBATCH)", "STRSBS WORK", "HLDJOBQ WORK"):
        do(post(line))
    for _ in range(count):
        do(post("SBMJOB CMD(CALL PGM(TRUE)) JOB(A) JOBQ(WORK)"))
    begun = time.time()
    do(post("RLSJOBQ WORK"))
    while b"WORK            0 " not in do(get("/subsystems")):
        time.sleep(0.005)
    print(round(count / (time.time() - begun)))


def spawn(count, width):
    begun = time.time()
    left, out = count, 0
    while left or out:
        if left and out < width:
            os.posix_spawn("/bin/true", ["/bin/true"], {})
            left, out = left - 1, out + 1
        else:
            os.wait()
            out -= 1
    print(round(count / (time.time() - begun)))


words = [int(it) if it.isdigit() else it for it in sys.argv[2:]]
if sys.argv[1] == "get":
    rate(ask, *words[:3], get(words[3]))
elif sys.argv[1] == "each":
    rate(ask_anew, *words[:3], get(words[3]))
elif sys.argv[1] == "post":
    rate(ask, *words, post("SBMJOB CMD(CALL PGM(ECHO)) JOB(A) HOLD(*YES)"))
elif sys.argv[1] == "jobs":
    jobs(*words)
else:
    spawn(*words)
