#!/usr/bin/env python3
"""Writes crates/wm_test_machine/data/pools.txt: what scripts over two prestart entries are answered, reckoned from the rules.

    python3 bench/prestart.py > crates/wm_test_machine/data/pools.txt
    python3 bench/prestart.py --check

The entries stand in one description and share its MAXJOBS. A script is drawn step by step from what may be asked of the
machine then: commands, orders and reports of two monitors, and the moments at which a wish or the subsystem is due. Some
of it is refused. Behind 10 to 25 of these the first monitor takes what is left of its orders, and the state is shown.

By each of nine wrong rules, one at a time, some script must have another log. That is looked at before the file is
written; `--check` writes instead how many scripts do.
"""
import re
import sys

NOMAX = float("inf")
SCRIPTS = 200
START = 1000
SEED = 7000

WRONG = {
    "idle": "only idle jobs are available",
    "entry": "MAXJOBS of the entry is passed",
    "subsystem": "MAXJOBS of the subsystem is passed",
    "greatest": "a request goes to the idle job of greatest number",
    "late": "waiting requests are given out after jobs are made",
    "stopped": "jobs are made for a stopped entry",
    "unused": "a job that ends unused doesn't stop its entry",
    "before": "MAXUSE is compared before the use is counted",
    "endpj": "ENDPJ leaves the waiting requests",
}


class Refused(Exception):
    pass


class Entry:
    def __init__(self, pgm, inljobs, threshold, adljobs, maxjobs, maxuse, wait, strjobs):
        self.pgm, self.inljobs, self.threshold, self.adljobs = pgm, inljobs, threshold, adljobs
        self.maxjobs, self.maxuse, self.wait, self.strjobs = maxjobs, maxuse, wait, strjobs

    def line(self):
        keys = [("STRJOBS", "*YES" if self.strjobs else "*NO", "*YES")]
        keys += [("INLJOBS", self.inljobs, 3), ("THRESHOLD", self.threshold, 2), ("ADLJOBS", self.adljobs, 2)]
        keys += [("MAXJOBS", self.maxjobs, NOMAX), ("MAXUSE", self.maxuse, 200)]
        keys += [("WAIT", "*YES" if self.wait else "*NO", "*YES")]
        given = "".join(f" {key}({value})" for key, value, default in keys if value != default)
        return f"ADDPJE SBSD(SP) PGM({self.pgm}){given} CLS(QBATCH)"


class Job:
    def __init__(self, serial, entry):
        self.serial, self.entry = serial, entry
        # A phase, the monitor of a job that was handed out, the cause of an ended one.
        self.phase, self.monitor, self.cause = "STARTING", None, None
        # A wish is for now, or for a moment (NOMAX: for none); a wish for now may have been handed out.
        self.why, self.now, self.until, self.handed = None, False, NOMAX, False
        self.uses, self.evoke = 0, False

    def name(self):
        return f"{self.serial:06}/QUSER/{self.entry.pgm}"

    def is_active(self):
        return self.phase != "ENDED"

    def is_idle(self):
        return self.phase == "RUNNING" and not self.evoke and self.why is None

    def is_available(self):
        return self.why is None and (self.phase in ("STARTING", "HANDED") or self.is_idle())

    def phase_word(self):
        return "ACTIVE" if self.phase in ("HANDED", "RUNNING") else self.phase

    def shown_phase(self):
        return f"{self.phase} {self.monitor or self.cause or ''}".rstrip()

    def wish_later(self, until, why):
        self.why, self.until = why, until

    def wish_now(self, why):
        self.why, self.now, self.handed = why, True, False

    def end(self, cause):
        self.phase, self.monitor, self.cause = "ENDED", None, cause


class Machine:
    """Subsystem SP with its two entries, sorted by program; by a wrong rule where one is named."""

    def __init__(self, maxjobs, entries, wrong=None):
        self.maxjobs, self.entries, self.wrong = maxjobs, sorted(entries, key=lambda e: e.pgm), wrong
        self.moment, self.clock, self.power = START, 0, "ON"
        self.jobs, self.stopped, self.requests = [], [], []
        # ACTIVE, ENDING or NOW, or None where the subsystem isn't started; the moment of an ENDING one.
        self.phase, self.until = None, NOMAX

    # What is counted.

    def active(self, entry=None):
        return [j for j in self.jobs if j.is_active() and entry in (None, j.entry)]

    def idle(self, entry):
        return [j for j in self.active(entry) if j.is_idle()]

    def available(self, entry):
        if self.wrong == "idle":
            return len(self.idle(entry))
        return sum(j.is_available() for j in self.active(entry))

    def room(self, entry, wanted):
        room = wanted
        if self.wrong != "entry":
            room = min(room, entry.maxjobs - len(self.active(entry)))
        if self.wrong != "subsystem":
            room = min(room, self.maxjobs - len(self.active()))
        return max(room, 0)

    # Settling.

    def make(self, entry, count):
        for _ in range(count):
            self.jobs.append(Job(len(self.jobs) + 1, entry))

    def come_due(self):
        if self.phase == "ENDING" and self.until <= self.clock:
            self.phase = "NOW"
        if self.phase == "NOW":
            for job in self.active():
                if not job.now:
                    job.wish_now("ENDSBS")
        for job in self.active():
            if job.why is not None and not job.now and (job.until <= self.clock or not job.evoke):
                job.wish_now(job.why)
        for job in self.active():
            if job.phase == "STARTING" and job.now:
                job.end(job.why)

    def leave(self):
        if self.phase in ("ENDING", "NOW") and not self.active():
            self.phase, self.stopped, self.requests = None, [], []

    def give(self, entry, job):
        job.evoke = True
        job.uses += 1

    def next_idle(self, entry):
        pick = max if self.wrong == "greatest" else min
        return pick(self.idle(entry), key=lambda j: j.serial, default=None)

    def assign(self, entry):
        while entry in self.requests and (job := self.next_idle(entry)) is not None:
            self.requests.remove(entry)
            self.give(entry, job)

    def replenish(self, entry):
        if entry in self.stopped and self.wrong != "stopped":
            return
        while self.available(entry) < entry.threshold and (room := self.room(entry, entry.adljobs)) > 0:
            self.make(entry, room)

    def settle(self):
        self.come_due()
        self.leave()
        if self.phase == "ACTIVE":
            for entry in self.entries:
                parts = [self.assign, self.replenish]
                for part in reversed(parts) if self.wrong == "late" else parts:
                    part(entry)

    # Refusals.

    def power_on(self):
        if self.power != "ON":
            raise Refused("17 POWERINGDOWN")

    def is_started(self):
        if self.phase is None:
            raise Refused("06 SBSNOTACTIVE")

    def not_ending(self):
        if self.phase != "ACTIVE":
            raise Refused("08 ALREADYENDING")

    def entry(self, keys):
        found = [e for e in self.entries if e.pgm == keys["PGM"]]
        if not found:
            raise Refused("02 NOOBJECT PJE")
        return found[0]

    def job(self, name):
        if "/" in name:
            found = [j for j in self.jobs if j.name() == name]
        else:
            found = [j for j in self.active() if j.entry.pgm == name]
        if not found:
            raise Refused("09 NOJOB")
        if len(found) > 1:
            raise Refused(f"18 AMBIGUOUS {len(found)}")
        return found[0]

    # Commands.

    def after(self, keys, default):
        """The clock and the DELAY."""
        delay = keys.get("DELAY", default)
        return NOMAX if delay == "*NOLIMIT" else self.clock + int(delay)

    def stop(self, entry):
        if entry not in self.stopped:
            self.stopped.append(entry)

    def strsbs(self, keys):
        self.power_on()
        if self.phase is not None:
            raise Refused("07 ALREADYACTIVE")
        self.phase, self.until = "ACTIVE", NOMAX
        for entry in self.entries:
            if entry.strjobs:
                self.make(entry, self.room(entry, entry.inljobs))
            else:
                self.stop(entry)
        return "OK subsystem QGPL/SP started"

    def end_subsystem(self, is_now, until):
        self.requests = []
        if is_now:
            self.phase = "NOW"
            for job in self.active():
                if not job.now:
                    job.wish_now("ENDSBS")
        else:
            self.phase, self.until = "ENDING", until
            for job in self.active():
                if job.why is None:
                    job.wish_later(NOMAX, "ENDSBS")

    def endsbs(self, keys):
        self.is_started()
        is_now = keys.get("OPTION") == "*IMMED"
        if self.phase == "NOW" or (self.phase == "ENDING" and not is_now):
            raise Refused("08 ALREADYENDING")
        self.end_subsystem(is_now, self.after(keys, "*NOLIMIT"))
        return "OK subsystem QGPL/SP ending"

    def pwrdwnsys(self, keys):
        is_now = keys.get("OPTION") == "*IMMED"
        if self.power == "DOWNNOW" or (self.power == "DOWN" and not is_now):
            raise Refused("17 POWERINGDOWN")
        self.power = "DOWNNOW" if is_now else "DOWN"
        if self.phase == "ACTIVE" or (self.phase == "ENDING" and is_now):
            self.end_subsystem(is_now, self.after(keys, 3600))
        return "OK power down"

    def strpj(self, keys):
        self.power_on()
        self.is_started()
        self.not_ending()
        entry = self.entry(keys)
        if entry not in self.stopped:
            raise Refused("07 ALREADYACTIVE")
        self.stopped.remove(entry)
        self.make(entry, self.room(entry, max(entry.inljobs - self.available(entry), 0)))
        return "OK prestart started"

    def endpj(self, keys):
        self.is_started()
        entry = self.entry(keys)
        if entry in self.stopped and not self.active(entry):
            raise Refused("15 ENTRYSTOPPED")
        self.stop(entry)
        if self.wrong != "endpj":
            self.requests = [e for e in self.requests if e is not entry]
        for job in self.active(entry):
            if keys.get("OPTION") == "*IMMED":
                if not job.now:
                    job.wish_now("ENDPJ")
            elif job.why is None:
                job.wish_later(self.after(keys, "*NOLIMIT"), "ENDPJ")
        return "OK prestart ending"

    def evoke(self, keys):
        self.power_on()
        self.is_started()
        self.not_ending()
        entry = self.entry(keys)
        if entry in self.stopped:
            raise Refused("15 ENTRYSTOPPED")
        job = self.next_idle(entry)
        if job is not None:
            self.give(entry, job)
            return f"OK {job.name()} has the request"
        if not entry.wait:
            raise Refused("16 NONEAVAILABLE")
        self.requests.append(entry)
        return f"OK request waits as {self.requests.count(entry)}"

    def use_done(self, job):
        if not job.evoke:
            raise Refused("23 NOTINUSE")
        job.evoke = False
        counted = job.uses - 1 if self.wrong == "before" else job.uses
        if job.why is not None and not job.now:
            job.wish_now(job.why)
        elif job.why is None and counted >= job.entry.maxuse:
            job.wish_now("MAXUSE")

    def enduse(self, keys):
        job = self.job(keys["JOB"])
        if job.phase != "RUNNING":
            raise Refused(f"10 WRONGPHASE {job.phase_word()}")
        self.use_done(job)
        return f"OK {job.name()} use ended"

    def endjob(self, keys):
        job = self.job(keys["JOB"])
        is_now = keys.get("OPTION") == "*IMMED"
        if not job.is_active():
            raise Refused("10 WRONGPHASE ENDED")
        if job.now or (job.why is not None and not is_now):
            raise Refused("08 ALREADYENDING")
        if is_now:
            job.wish_now("ENDJOB")
        else:
            job.wish_later(self.after(keys, 30), "ENDJOB")
        return f"OK {job.name()} ending"

    # Calls of a monitor.

    def kills(self, monitor):
        return [j for j in self.jobs if j.phase == "RUNNING" and j.monitor == monitor and j.now and not j.handed]

    def starts(self):
        return [j for j in self.jobs if j.phase == "STARTING"]

    def hand(self, monitor):
        for job in self.kills(monitor):
            job.handed = True
            return f"KILL {job.serial}"
        for job in self.starts():
            job.phase, job.monitor = "HANDED", monitor
            return f"START {job.serial}"
        return "NOTHING"

    def report(self, monitor, word, serial, code=None):
        found = [j for j in self.jobs if j.serial == int(serial)]
        if not found:
            raise Refused("09 NOJOB")
        job = found[0]
        wanted = "HANDED" if word in ("started", "failed") else "RUNNING"
        if (job.phase, job.monitor) != (wanted, monitor):
            raise Refused(f"10 WRONGPHASE {job.phase_word()}")
        if word == "started":
            job.phase = "RUNNING"
        elif word == "failed":
            job.end("STARTFAILED SPAWNER")
            self.stop(job.entry)
        elif word == "used":
            self.use_done(job)
        else:
            self.finish(job, "KILLED" if word == "killed" else "COMPLETED" if code == "0" else f"EXITED {code}")
        return "NOTED"

    def finish(self, job, cause):
        if job.uses == 0 and not job.now and self.wrong != "unused":
            self.stop(job.entry)
        job.end(job.why if job.now else cause)

    def monitor(self, monitor, word, *words):
        if word == "hand":
            return self.hand(int(monitor))
        if word == "tick":
            return "NOTED"
        return self.report(int(monitor), word, *words)

    # What is shown.

    def dues(self):
        moments = [j.until for j in self.active() if j.why is not None and not j.now]
        if self.phase == "ENDING":
            moments.append(self.until)
        return [m for m in moments if self.clock < m < NOMAX]

    def shown(self, what):
        if what == "jobs":
            return [f"{j.serial} {j.entry.pgm} {j.shown_phase()}" for j in self.jobs]
        if what == "prestart":
            return [f"{j.serial} {j.shown_phase()} USES {j.uses}{' IN USE' if j.evoke else ''}" for j in self.jobs]
        if what == "stopped":
            return [f"QGPL/SP QGPL/{e.pgm}" for e in self.stopped]
        if what == "requests":
            return [f"QUSER QGPL/SP QGPL/{e.pgm}" for e in self.requests]
        if what == "power":
            return [f"{self.power} STARTED {int(self.phase is not None)}"]
        orders = len(self.kills(1)) + len(self.starts())
        return [f"ACTIVE {len(self.active())} ORDERS {orders} DUE {min(self.dues(), default='NONE')}"]

    def call(self, act):
        self.clock = max(self.clock, self.moment)
        try:
            reply = act()
        except Refused as refusal:
            reply = f"NO {refusal}"
        self.settle()
        return [reply]

    def answer(self, question):
        """The lines of the answer."""
        word, *words = question.split()
        if word == "set":
            self.moment = int(words[1])
            return []
        if word == "show":
            return self.shown(words[0])
        if word == "monitor":
            return self.call(lambda: self.monitor(*words))
        keys = dict(re.findall(r"(\w+)\(([^)]*)\)", question))
        return self.call(lambda: getattr(self, word.lower())(keys))


class Row:
    """A fixed pseudo-random row: the linear congruence of C's standard, its upper bits."""

    def __init__(self, seed):
        self.seed = seed

    def below(self, limit):
        self.seed = (self.seed * 1103515245 + 12345) % 2**31
        return (self.seed >> 16) % limit

    def among(self, *values):
        return values[self.below(len(values))]

    def weighed(self, choices):
        """A choice of weights and values."""
        place = self.below(sum(weight for weight, _ in choices))
        for weight, value in choices:
            if place < weight:
                return value
            place -= weight


def made_entry(row, pgm):
    inljobs = row.among(1, 1, 2, 2, 3, 4)
    maxjobs = row.among(inljobs, inljobs + 1, inljobs + 2, NOMAX)
    return Entry(
        pgm,
        inljobs,
        threshold=row.among(inljobs, 1 + row.below(inljobs)),
        adljobs=min(row.among(0, 1, 1, 1, 2), maxjobs - 1),
        maxjobs=maxjobs,
        maxuse=row.among(1, 2, 3, 200),
        wait=row.below(8) > 0,
        strjobs=row.below(8) > 0,
    )


def ending(row, line, delay):
    """The command that ends something, by one of its options."""
    return line + row.among("", f" DELAY({delay})", f" DELAY({delay})", " OPTION(*IMMED)")


def of_job(row, job):
    """What may be asked of an active job, with its weight."""
    if job.phase == "STARTING":
        yield 1, f"monitor 1 {row.among('started', 'failed', 'used')} {job.serial}"
    elif job.phase == "HANDED":
        yield 60, f"monitor {job.monitor} started {job.serial}"
        yield 5, f"monitor {job.monitor} failed {job.serial}"
        yield 1, f"monitor {3 - job.monitor} started {job.serial}"
    else:
        yield (60 if job.handed else 2), f"monitor {job.monitor} killed {job.serial}"
        yield 4, f"monitor {job.monitor} finished {job.serial} {row.among(0, 0, 3)}"
        yield (14 if job.evoke else 1), f"monitor {job.monitor} used {job.serial}"
        yield (14 if job.evoke else 1), f"ENDUSE JOB({job.name()})"
        yield 1, f"monitor {3 - job.monitor} {row.among('used', 'killed')} {job.serial}"
    yield (5 if job.evoke or job.phase == "HANDED" else 1), ending(row, f"ENDJOB JOB({job.name()})", 5)


def of_entry(row, machine, entry):
    keys = f"SBS(SP) PGM({entry.pgm})"
    is_on = machine.phase == "ACTIVE" and machine.power == "ON"
    is_stopped = entry in machine.stopped
    in_use = sum(j.evoke for j in machine.active(entry))
    yield (3 if is_stopped or not is_on else 40 if machine.idle(entry) else 14), f"EVOKE {keys}"
    yield (20 if is_stopped and is_on else 1), f"STRPJ {keys}"
    yield 2 + 5 * in_use, ending(row, f"ENDPJ {keys}", 10)
    yield 1, f"{row.among('ENDUSE', 'ENDJOB')} JOB({entry.pgm})"


def choices(row, machine):
    for job in machine.active():
        yield from of_job(row, job)
    for job in [j for j in machine.jobs if not j.is_active()][:1]:
        yield 1, f"{row.among('ENDUSE', 'ENDJOB')} JOB({job.name()})"
    for entry in machine.entries:
        yield from of_entry(row, machine, entry)
    for monitor, weight in (1, 60), (2, 8):
        yield (weight if machine.kills(monitor) or machine.starts() else 1), f"monitor {monitor} hand"
    yield 1, f"{row.among('EVOKE', 'STRPJ', 'ENDPJ')} SBS(SP) PGM(NONE)"
    yield (80 if machine.phase is None and machine.power == "ON" else 1), "STRSBS SP"
    in_use = sum(j.evoke for j in machine.active())
    yield 2 + 2 * in_use, ending(row, "ENDSBS SP", 20)
    yield (1 if machine.phase != "ENDING" else 12), ending(row, "PWRDWNSYS", 30)
    if machine.dues():
        yield 40, f"set now {min(machine.dues()) - row.below(2)}"


def script(number):
    """The entries, and what is asked behind STRSBS with its answers by the right rules."""
    row = Row(SEED + number)
    entries = [made_entry(row, "A"), made_entry(row, "ECHO")]
    machine = Machine(2 + row.below(6), entries)
    asked = []

    def ask(question):
        asked.append((question, machine.answer(question)))
        return asked[-1][1]

    ask("STRSBS SP")
    for _ in range(10 + max(row.below(16), row.below(16))):
        question = row.weighed(list(choices(row, machine)))
        ask(question)
        if question.startswith("set"):
            ask("monitor 1 tick")
    while ask("monitor 1 hand") != ["NOTHING"]:
        pass
    for what in "jobs", "prestart", "stopped", "requests", "pending", "power":
        ask(f"show {what}")
    return machine.maxjobs, row.among(entries, entries[::-1]), asked


def tells(wrong, maxjobs, entries, asked):
    """Whether some answer by the wrong rule is another one."""
    machine = Machine(maxjobs, entries, wrong)
    return any(machine.answer(question) != answer for question, answer in asked)


def write(number, maxjobs, entries, asked):
    print(f"== script {number}: two entries, at most {maxjobs} jobs of them")
    made = ["CRTPGMREF PGM(A) PATH('/bin/true')", f"CRTSBSD SP MAXJOBS({maxjobs})"]
    made += [entry.line() for entry in entries]
    for question, answer in [(line, ["OK"]) for line in made] + asked:
        print("\n".join([f"> {question}"] + answer))
    print()


def main():
    scripts = [script(number) for number in range(1, SCRIPTS + 1)]
    told = {wrong: sum(tells(wrong, *it) for it in scripts) for wrong in WRONG}
    assert not any(tells(None, *it) for it in scripts)
    assert all(told.values()), told
    if sys.argv[1:] == ["--check"]:
        for wrong, count in told.items():
            print(f"{count:3} of {SCRIPTS} scripts have another log where {WRONG[wrong]}")
        return
    for number, it in enumerate(scripts, 1):
        write(number, *it)


main()
