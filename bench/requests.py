#!/usr/bin/env python3
"""Writes crates/wm_test_serve/data/requests.txt: what is cut from bytes. What each case comes to is written by hand from the
rules; the lengths are counted here.

    bench/requests.py > crates/wm_test_serve/data/requests.txt"""
import re

MOST = 8192


def size(text):
    """How many bytes a case's text stands for."""
    text = re.sub(r"\{(\d+) ([^}]*)\}", lambda m: m[2] * int(m[1]), text)
    return len(re.sub(r"\\(x[0-9a-f]{2}|.)", "?", text))


def section(name):
    print(f"\n== {name}")


def ask(word, text, *lines):
    print(f"> {word} {text}" if text else f"> {word}")
    print("\n".join(lines))


def waits(text):
    ask("cut", text, f"read on {MOST - size(text)}")


def fails(text, answer):
    ask("cut", text, answer)


def whole(head, body="", method="GET", target="/active", more="", closes=False):
    shown = body if size(body) <= 200 else f"({size(body)} bytes)"
    ask("cut", head + body + more, f"{method} {target}", f"[{shown}]", f"{size(head + body)} bytes{', closes' if closes else ''}")


def get(fields="", end="\\r\\n", version="1.1"):
    return f"GET /active HTTP/{version}{end}{fields}{end}"


def post(*fields):
    return "POST /users/ANN/commands HTTP/1.1\\r\\n" + "".join(f + "\\r\\n" for f in fields) + "\\r\\n"


def posted(head, body="", more="", closes=False):
    whole(head, body, "POST", "/users/ANN/commands", more, closes)


BAD, LARGE, CODING, LENGTH, BODY, WANTED = ("400 HEAD", "431 HEAD TOO LARGE", "501 TRANSFER ENCODING", "400 LENGTH",
                                            "413 TOO LARGE", "411 LENGTH REQUIRED")

print("== Heads")
waits("")
waits("G")
waits("GET")
waits("GET /active HTTP/1.1\\r\\n")
waits("GET /active HTTP/1.1\\r\\nA: b\\r\\n")
waits("GET /active HTTP/1.1\\r\\nA: b\\r\\n\\r")
whole(get())
whole(get(end="\\n"))
whole(get("A: b\\r\\nC:d\\r\\nE:\\r\\n"))
whole("\\r\\n\\n\\r\\n" + get())
whole(get(), more="GET /log HTTP/1.1\\r\\n\\r\\n")
whole(get(), more="\\x00")
whole("GET / HTTP/1.1\\r\\n\\r\\n", target="/")
whole("!#$%&'*+-.^_`|~09azAZ * HTTP/1.1\\r\\n\\r\\n", method="!#$%&'*+-.^_`|~09azAZ", target="*")

section("No heads")
for text in ("\\x00", "(", "G\\x00", "GET/", "GET\\t", " GET", "GET  /active", "GET /a\\x7f", "GET /active\\r\\n", "GET /active HTTP/1.1\\x20",
             "GET /active HTTP/1.2", "GET /active HTTP/2", "GET /active http/1.1", "GET /active HTTP/1.1\\rA", "\\rG",
             get("A B: c\\r\\n"), get(": c\\r\\n"), get("A : b\\r\\n"), get("A\\r\\n"), get("A: \\x01\\r\\n"), get("A: b\\r\\n c\\r\\n"),
             get("A: b\\rc\\r\\n"), get("\\xc3\\xa4: b\\r\\n")):
    fails(text, BAD)
whole(get("A: \\x80\\xff\\t~\\r\\n"))

section("A target is judged once it has ended")
whole("GET /\\xc3\\xa4 HTTP/1.1\\r\\n\\r\\n", target="/\\xc3\\xa4")
waits("GET /\\xff")
waits("GET /\\xffa")
fails("GET /\\xff\\x20", BAD)
fails("GET /\\xc3 HTTP/1.1\\r\\n\\r\\n", BAD)

section("At most 32 fields")
whole(get("{32 A: b\\r\\n}"))
waits("GET /active HTTP/1.1\\r\\n{32 A: b\\r\\n}")
waits("GET /active HTTP/1.1\\r\\n{32 A: b\\r\\n}A: b")
waits("GET /active HTTP/1.1\\r\\n{32 A: b\\r\\n}A: b\\r")
fails("GET /active HTTP/1.1\\r\\n{32 A: b\\r\\n}A: b\\r\\n", LARGE)
fails("GET /active HTTP/1.1\\n{33 A: b\\n}", LARGE)
fails(get("{33 A: b\\r\\n}"), LARGE)
fails(get("{40 A: b\\r\\n}"), LARGE)
fails("GET /active HTTP/1.1\\r\\n{33 A: b\\r\\n}\\x00", LARGE)
fails("GET /active HTTP/1.1\\r\\n{32 A: b\\r\\n}A b", BAD)
fails("GET /active HTTP/1.1\\r\\n{32 A: b\\r\\n}A: \\x00\\r\\n", BAD)
fails("\\r\\n\\n" + get("{33 A: b\\r\\n}"), LARGE)
whole("{40 \\r\\n}" + get("{32 A: b\\r\\n}"))

section("A head of at most 8,192 bytes")
for pad in range(3):
    # The rest of the head has 29 bytes.
    head = get("A: {%d b}\\r\\n" % (8162 + pad))
    if pad < 2:
        whole(head)
    else:
        fails(head, LARGE)
assert size(get("A: {8162 b}\\r\\n")) == 8191
ask("cut", "GET /active HTTP/1.1\\r\\nA: {8166 b}", "read on 1")
fails("GET /active HTTP/1.1\\r\\nA: {8167 b}", LARGE)
fails("GET /active HTTP/1.1\\r\\nA: {9000 b}", LARGE)
fails("GET /{8187 a}", LARGE)
fails("{8192 G}", LARGE)
fails("{4096 \\r\\n}", LARGE)
fails("{4096 \\r\\n}" + get(), LARGE)
fails("{8191 G}\\x00", BAD)
fails("{8192 G}\\x00", LARGE)
assert size("GET /active HTTP/1.1\\r\\nA: {8166 b}") == 8191

section("HTTP/1.0 closes")
whole(get(version="1.0"), closes=True)
whole(get("Connection: keep-alive\\r\\n", version="1.0"), closes=True)

section("Connection")
for value in ("close", "CLOSE", "Close", "  close\\t "):
    whole(get(f"Connection: {value}\\r\\n"), closes=True)
whole(get("connection:close\\r\\n"), closes=True)
whole(get("CONNECTION: close\\r\\n"), closes=True)
whole(get("Connection: keep-alive\\r\\nConnection: close\\r\\n"), closes=True)
for value in ("keep-alive", "keep-alive, close", "close, close", "closed", "clos", "c lose", "", "\\x22close\\x22"):
    whole(get(f"Connection: {value}\\r\\n"))
whole(get("Proxy-Connection: close\\r\\nX: close\\r\\n"))

section("Bodies")
posted(post("Content-Length: 0"))
posted(post("Content-Length: 5"), "CRTJO")
posted(post("content-length:5"), "CRTJO", more="GET")
posted(post("CONTENT-LENGTH:  5\\t"), "\\x00\\x0d\\x0a\\xff~")
ask("cut", post("Content-Length: 5") + "CRT", "read on 2")
ask("cut", post("Content-Length: 5"), "read on 5")
ask("cut", post("Content-Length: 8192"), "read on 8192")
posted(post("Content-Length: 8192"), "{8192 A}")
ask("cut", post("Content-Length: 8192") + "{8191 A}", "read on 1")
posted(post("Content-Length: 000000005"), "CRTJO")
posted(post("Content-Length: 5", "Connection: close"), "CRTJO", closes=True)
whole(get("Content-Length: 3\\r\\n"), "abc")
whole("PUT / HTTP/1.1\\r\\n\\r\\n", method="PUT", target="/")
whole("post / HTTP/1.1\\r\\n\\r\\n", method="post", target="/")
posted(post("Expect: 100-continue", "Content-Length: 1"), "A")

section("Lengths that are none")
for value in ("", "abc", "+5", "-1", "5 5", "5,5", "0x5", "5.", "1234567890", "0000000005", "\\xb2"):
    fails(post(f"Content-Length: {value}"), LENGTH)
fails(post("Content-Length: 5", "Content-Length: 5"), LENGTH)
fails(post("Content-Length: 5", "content-length: 6"), LENGTH)
fails(post("Content-Length: x", "Content-Length: 6"), LENGTH)
fails(get("Content-Length: abc\\r\\n"), LENGTH)

section("The order of tests")
fails(post("Content-Length: 8193"), BODY)
fails(post("Content-Length: 9000") + "CRT", BODY)
fails(post("Content-Length: 999999999"), BODY)
fails(get("Content-Length: 8193\\r\\n"), BODY)
fails(post(), WANTED)
fails("POST / HTTP/1.0\\r\\n\\r\\n", WANTED)
fails(post("Content-Length: 9000", "Content-Length: 9000"), LENGTH)
for coding in ("chunked", "identity", ""):
    fails(post(f"Transfer-Encoding: {coding}"), CODING)
fails(get("transfer-encoding: x\\r\\n"), CODING)
fails(post("Transfer-Encoding: chunked", "Content-Length: abc"), CODING)
fails(post("Content-Length: 9000", "Transfer-Encoding: chunked"), CODING)
fails(post("Content-Length: abc", "A b: c"), BAD)
fails(post("Transfer-Encoding: chunked", "{32 A: b\\r\\n}A: b"), LARGE)

section("As the bytes come one by one")
head = post("Content-Length: 5", "Connection: close")
ask("grow", head + "CRTJO", "with all bytes", "POST /users/ANN/commands", "[CRTJO]", f"{size(head) + 5} bytes, closes")
ask("grow", head + "CRTJOGET", f"from {size(head) + 5} bytes on", "POST /users/ANN/commands", "[CRTJO]", f"{size(head) + 5} bytes, closes")
ask("grow", "\\r\\n" + get("A: b\\r\\n") + "GET", f"from {size(get('A: b')) + 4} bytes on", "GET /active", "[]", f"{size(get('A: b')) + 4} bytes")
ask("grow", "GET /active HTTP/1.1\\r\\n{33 A: b\\r\\n}A b", f"from {size('GET /active HTTP/1.1..{33 A: b..}')} bytes on", LARGE)
ask("grow", "GET /active HTTP/1.1\\r\\n{32 A: b\\r\\n}A b\\r\\n", f"from {size('GET /active HTTP/1.1..{32 A: b..}') + 2} bytes on", BAD)
ask("grow", "GET /active HTTQ", "with all bytes", BAD)
ask("grow", post("Transfer-Encoding: chunked") + "0", f"from {size(post('Transfer-Encoding: chunked'))} bytes on", CODING)
