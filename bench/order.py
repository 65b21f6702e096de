#!/usr/bin/env python3
"""Writes crates/wm_test_runs/data/order.txt: in which order 300 jobs start, reckoned from the rules of docs/MACHINE.md.

    python3 bench/order.py > crates/wm_test_runs/data/order.txt

Three queues feed two subsystems, and one of the queues stands in both descriptions. Half of the jobs are there before
the subsystems start. No child has its report before it is waited for, and a wait reports the longest-out one, so that
one job ends at a time, and what the machine launches then is handed out before the next one ends.
"""

NOMAX = float("inf")
PRIORITIES = range(1, 10)
QUEUES = ["SHARED", "LEFT", "RIGHT"]
JOBS = 300
EARLY = 150

# A description: its MAXJOBS, and by queue the sequence number, MAXACT and the MAXPTYs that aren't *NOMAX.
DESCRIPTIONS = {
    "ABLE": (4, {"SHARED": (10, NOMAX, {}), "RIGHT": (20, NOMAX, {1: 1, 2: 2, 4: 1, 5: 1, 8: 2})}),
    "ZEBRA": (7, {"SHARED": (20, NOMAX, {1: 2, 3: 1, 6: 2, 7: 1}), "LEFT": (10, 3, {2: 1, 3: 1, 5: 2, 9: 1})}),
}
# In the order of their start: the first one holds the shared queue.
STARTED = ["ZEBRA", "ABLE"]


class Job:
    def __init__(self, place, queue, priority):
        self.place, self.queue, self.priority = place, queue, priority
        self.phase = "waiting"

    def name(self):
        return f"J{self.place}"


def holder(queue, started):
    """The first started subsystem with an entry for the queue."""
    return next((name for name in started if queue in DESCRIPTIONS[name][1]), None)


class Machine:
    def __init__(self):
        self.jobs, self.started, self.asked, self.out = [], [], [], []

    def active(self, subsystem):
        return [j for j in self.jobs if j.phase in ("starting", "running") and holder(j.queue, self.started) == subsystem]

    def is_allowed(self, job):
        subsystem = holder(job.queue, self.started)
        max_jobs, entries = DESCRIPTIONS[subsystem]
        _, max_active, max_priority = entries[job.queue]
        active = self.active(subsystem)
        from_queue = [j for j in active if j.queue == job.queue]
        alike = [j for j in from_queue if j.priority == job.priority]
        return (
            len(active) < max_jobs
            and len(from_queue) < max_active
            and len(alike) < max_priority.get(job.priority, NOMAX)
        )

    def first(self, subsystem):
        """The waiting and allowed job of least sequence number, priority and place."""
        entries = DESCRIPTIONS[subsystem][1]
        jobs = [j for j in self.jobs if j.phase == "waiting" and holder(j.queue, self.started) == subsystem]
        jobs = [j for j in jobs if self.is_allowed(j)]
        return min(jobs, key=lambda j: (entries[j.queue][0], j.priority, j.place), default=None)

    def next(self):
        firsts = (self.first(name) for name in sorted(self.started))
        return next((job for job in firsts if job is not None), None)

    def settle(self):
        while (job := self.next()) is not None:
            job.phase = "starting"

    def turn(self):
        """The starting jobs are handed out, that of least serial first. A serial here is the place."""
        for job in self.jobs:
            if job.phase == "starting":
                job.phase = "running"
                self.asked.append(job)
                self.out.append(job)

    def call(self):
        self.settle()
        self.turn()

    def submit(self, job):
        self.jobs.append(job)
        self.call()

    def start(self, subsystem):
        self.started.append(subsystem)
        self.call()

    def finish(self):
        """Waits until no job is active."""
        while self.out:
            self.out.pop(0).phase = "ended"
            self.call()


def numbers(seed):
    """A fixed pseudo-random row: the linear congruence of C's standard, its upper bits."""
    while True:
        seed = (seed * 1103515245 + 12345) % 2**31
        yield seed >> 16


def made_jobs():
    row = numbers(17)
    return [Job(place, QUEUES[next(row) % 3], 1 + next(row) % 9) for place in range(1, JOBS + 1)]


def word(limit):
    return "*NOMAX" if limit == NOMAX else str(limit)


def lines_of_description(name):
    max_jobs, entries = DESCRIPTIONS[name]
    yield f"CRTSBSD SBSD({name}) MAXJOBS({max_jobs})"
    for queue, (number, max_active, max_priority) in entries.items():
        limits = "".join(f" MAXPTY{p}({limit})" for p, limit in sorted(max_priority.items()))
        yield f"ADDJOBQE SBSD({name}) JOBQ({queue}) MAXACT({word(max_active)}) SEQNBR({number}){limits}"
    yield f"ADDRTGE SBSD({name}) SEQNBR(9999) CMPVAL(*ANY) PGM(QSYS/QCMD) CLS(QBATCH)"


def submission(job):
    return f"SBMJOB CMD(CALL PGM(ECHO)) JOB({job.name()}) JOBQ({job.queue}) JOBPTY({job.priority})"


def script(jobs):
    """The lines, each with what it does to the machine."""
    for queue in QUEUES:
        yield f"CRTJOBQ {queue}", lambda machine: None
    for name in sorted(DESCRIPTIONS):
        for line in lines_of_description(name):
            yield line, lambda machine: None
    for job in jobs[:EARLY]:
        yield submission(job), lambda machine, job=job: machine.submit(job)
    for name in STARTED:
        yield f"STRSBS {name}", lambda machine, name=name: machine.start(name)
    for job in jobs[EARLY:]:
        yield submission(job), lambda machine, job=job: machine.submit(job)


def main():
    machine = Machine()
    print("== 300 jobs of three queues start in the order of sequence number, priority and place, within their limits")
    print("> lag 1000000")
    for line, act in script(made_jobs()):
        print(f"> line {line}")
        act(machine)
    machine.finish()
    assert sorted(job.place for job in machine.asked) == list(range(1, JOBS + 1))
    print("> run\nstatus 0\n> asked")
    for job in machine.asked:
        print(f"{job.place:06}/QUSER/{job.name()} /bin/echo")


main()
