#!/usr/bin/env python3
"""Writes crates/wm_test_runs/data/drill.txt: the text of a drill, its line and its history, reckoned from the rules.

    python3 bench/drill.py > crates/wm_test_runs/data/drill.txt

The text is drawn as docs/FORMATS.md says. The history is that of docs/MACHINE.md: a turn behind each command, a clock that
begins at 0 and goes on by one at each look at it, and children that have their reports from the 51st look behind their start on.
"""

LAG = 50
MAXJOBS = 8
MAXACT = 4
GREATEST = 2**64 - 1

SETUP = [
    *(f"CRTJOBQ Q{i}" for i in (1, 2, 3)),
    "CRTSBSD SBSD(DRILL) MAXJOBS(8)",
    *(f"ADDJOBQE SBSD(DRILL) JOBQ(Q{i}) MAXACT(4) SEQNBR({10 * i})" for i in (1, 2, 3)),
    "ADDRTGE SBSD(DRILL) SEQNBR(9999) CMPVAL(*ANY) PGM(QSYS/QCMD) CLS(QBATCH)",
    "STRSBS DRILL",
]


class Draws:
    def __init__(self, seed):
        self.x = seed

    def draw(self, n):
        self.x = (self.x * 6364136223846793005 + 1442695040888963407) % 2**64
        return (self.x >> 33) % n


def submits(seed, jobs):
    """The number, the queue and the priority of each job."""
    draws = Draws(seed)
    for i in range(1, jobs + 1):
        priority = 1 + draws.draw(9)
        yield i, 1 + draws.draw(3), priority


def text(seed, jobs):
    for line in SETUP:
        yield line
    for i, queue, priority in submits(seed, jobs):
        yield f"SBMJOB CMD(CALL PGM(ECHO) PARM('{i}')) JOB(J{i % 100:02}) JOBQ(Q{queue}) JOBPTY({priority})"


class Drill:
    """A run over a text: its machine, its children and its clock."""

    def __init__(self, seed, jobs):
        self.seed, self.jobs = seed, jobs
        self.clock = self.looks = 0
        self.waiting, self.starting, self.active = [], [], {}
        self.children, self.log = [], []

    def enter(self, caller, call, reply):
        self.log.append(f"{self.clock} {caller} {call} -> {reply}")
        self.clock += 1

    def settle(self):
        """Jobs are launched as long as the subsystem and a queue have room: by queue, then by priority, then as they came."""
        while len(self.active) < MAXJOBS:
            ready = [j for j in self.waiting if list(self.active.values()).count(j[0]) < MAXACT]
            if not ready:
                return
            queue, priority, serial = first = min(ready)
            self.waiting.remove(first)
            self.active[serial] = queue
            self.starting.append(serial)

    def start_all(self):
        sent = 0
        while self.starting:
            serial = min(self.starting)
            self.starting.remove(serial)
            self.enter(1, "HAND", f"ORDER START {serial}")
            self.children.append((serial, self.looks + LAG + 1))
            self.enter(1, f"STARTED {serial}", "NOTED")
            sent += 2
        return sent

    def end(self, child):
        self.children.remove(child)
        del self.active[child[0]]
        self.settle()
        self.enter(1, f"FINISHED {child[0]} CODE 0", "NOTED")

    def look_all(self):
        sent = 0
        while True:
            self.looks += 1
            ended = [child for child in self.children if child[1] <= self.looks]
            if not ended:
                return sent
            self.end(min(ended))
            sent += 1

    def turn(self):
        # What is pending is asked with the clock's moment.
        self.clock += 1
        return self.start_all() + self.look_all()

    def turns(self):
        while self.turn():
            pass

    def call(self, user, command):
        self.enter(0, f"{user} {command}", "OK")
        self.turn()

    def run(self):
        self.call("QSYS", "STRSBS")
        for line in SETUP:
            self.call("QUSER", line.split()[0])
        for serial, queue, priority in submits(self.seed, self.jobs):
            self.waiting.append((queue, priority, serial))
            self.settle()
            self.call("QUSER", "SBMJOB")
        self.turns()
        while self.active:
            # A wait without a moment reports the child that was started first.
            self.looks += 1
            self.end(self.children[0])
            self.turns()
        self.call("QSYS", "PWRDWNSYS")


def line(seed, jobs):
    return f"drill seed {seed} jobs {jobs} submitted {jobs} completed {jobs} waiting 0"


def case(name):
    print(f"== {name}")


def ask(question, *answer):
    print(f"> {question}")
    for answered in answer:
        print(answered)


def drills(seed, jobs, words=None):
    ask(f"words {words or f'drill --seed {seed} --jobs {jobs}'}")
    ask("drill", "status 0")
    ask("written", line(seed, jobs))


def texts():
    for seed, jobs in ((7, 12), (0, 4), (GREATEST, 4), (1, 1)):
        case(f"the text of seed {seed} with {jobs} jobs")
        ask(f"text {seed} {jobs}", *text(seed, jobs))
        print()
    case("a job's name ends with the last two digits of its number")
    ask("text 42 101", *text(42, 101))
    print()


def lines():
    case("the line of a drill")
    drills(7, 1000)
    drills(7, 5000)
    drills(0, 1)
    drills(GREATEST, 10, f"drill --jobs=10 --seed {GREATEST}")
    print()


def histories():
    for seed, jobs in ((7, 1), (7, 70), (0, 30), (GREATEST, 110)):
        drill = Drill(seed, jobs)
        drill.run()
        case(f"the history of seed {seed} with {jobs} jobs")
        drills(seed, jobs)
        ask("log", *drill.log)
        print()


def wrong_words():
    case("words that are none of a drill: nothing is begun or written")
    for words in (
        "run", "run --store", "run --offset E2400", "drill", "drill --seed 7", "drill --jobs 5",
        "drill --seed 7 --jobs 0", "drill --seed 7 --jobs 5001", f"drill --seed {GREATEST + 1} --jobs 1",
        "drill --seed 7 --jobs 5 --jobs 5", "drill --seed 7 --jobs 5 --store x", "drill --help",
    ):
        ask(f"words {words}")
        ask("drill", "status 2")
    ask("no words")
    ask("drill", "status 2")
    ask("written")
    ask("log")
    print()


def faults():
    case("a line that can't be written")
    ask("words drill --seed 7 --jobs 5")
    ask("fail write 1")
    ask("drill", "status 4")
    ask("written")
    print()
    case("a line whose second write fails")
    ask("words drill --seed 7 --jobs 5")
    ask("pieces 10")
    ask("fail write 2")
    ask("drill", "status 4")
    print()
    case("a line that is taken a byte at a time")
    ask("pieces 1")
    drills(7, 5)


if __name__ == "__main__":
    texts()
    lines()
    histories()
    wrong_words()
    faults()
