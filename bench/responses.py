#!/usr/bin/env python3
"""Writes crates/wm_test_serve/data/responses.txt: the bytes of each answer over HTTP, from a table of its own.

    bench/responses.py > crates/wm_test_serve/data/responses.txt"""
import json

PHRASES = {200: "OK", 400: "Bad Request", 404: "Not Found", 405: "Method Not Allowed", 409: "Conflict",
           411: "Length Required", 413: "Payload Too Large", 431: "Request Header Fields Too Large",
           501: "Not Implemented", 503: "Service Unavailable", 507: "Insufficient Storage"}


def reply(place, line):
    return json.dumps({"place": place, "reply": line}, separators=(",", ":"))


def error(text):
    return json.dumps({"error": text}, separators=(",", ":"))


def case(kind, status, body, text=False, allow=None, closes=False):
    for asked in ("answer", "last"):
        print(f"> {asked} {kind}")
        print(f"HTTP/1.1 {status} {PHRASES[status]}\\r")
        print(f"Content-Type: {'text/plain' if text else 'application/json'}\\r")
        print(f"Content-Length: {len(body)}\\r")
        if allow:
            print(f"Allow: {allow}\\r")
        if closes or asked == "last":
            print("Connection: close\\r")
        print("\\r")
        if body:
            print(body[:-1] if body.endswith("\n") else body)
        if asked == "answer":
            print("closes" if closes else "stays open")


def section(name):
    print(f"== {name}")


section("Commands that the machine answered")
for place, line in ((1, "OK"), (7, "OK 000001/QUSER/A submitted to QGPL/QBATCH"), (2 ** 64 - 1, "OK")):
    case(f"accepted {place} {line}", 200, reply(place, line))
for place, line in ((3, "NO 09 NOJOB"), (4, "NO 01 EXISTS JOBQ")):
    case(f"refused {place} {line}", 409, reply(place, line))
print()
section("What JSON writes in another way")
case('accepted 1 a\\"b\\\\c', 200, reply(1, 'a"b\\c'))
case("bad-command '\\t\\x01/", 400, error("'\t\x01/"))
print()
section("Listings")
for lines in ("", "QBATCH 0\n", "A\nB\n"):
    case("listing " + lines.replace("\n", "\\n"), 200, lines, text=True)
case("refused-read NO 02 NOOBJECT JOBQ", 409, error("NO 02 NOOBJECT JOBQ"))
print()
section("Commands that are none")
for line in ("CL 1 EMPTY", "CL 6 OPENCOMMENT 2", "CM 1 UNKNOWNCOMMAND"):
    case(f"bad-command {line}", 400, error(line))
case("several-commands", 400, error("ONE COMMAND"))
print()
section("Requests that are answered no further")
for kind, status, text in (("head", 400, "HEAD"), ("head-too-large", 431, "HEAD TOO LARGE"),
                           ("transfer-encoding", 501, "TRANSFER ENCODING"), ("length", 400, "LENGTH"),
                           ("too-large", 413, "TOO LARGE"), ("length-required", 411, "LENGTH REQUIRED")):
    case(f"bad-request {kind}", status, error(text), closes=True)
print()
section("Routes and methods")
case("no-route", 404, error("NO ROUTE"))
for method in ("GET", "POST"):
    case(f"wrong-method {method}", 405, error("METHOD"), allow=method)
print()
section("The store, the log and memory")
case("keeper-fault", 503, error("KEEPERFAULT"))
for limit in (1, 1000000, 2 ** 64 - 1):
    case(f"log-full {limit}", 503, error(f"LOGFULL {limit}"))
case("no-memory", 507, error("NOMEMORY"))
