#!/usr/bin/env python3
"""Writes crates/wm_test_parts/data/due.txt: when a job is due, reckoned with Python's datetime and calendar.

    python3 bench/dates.py > crates/wm_test_parts/data/due.txt
"""
import calendar
import datetime
import random

EPOCH = datetime.datetime(1970, 1, 1)
LAST_MOMENT = 253402214399
DAY = datetime.timedelta(days=1)
WEEKDAYS = ["mon", "tue", "wed", "thu", "fri", "sat", "sun"]
WORDS = ["current", "monthstart", "monthend"] + WEEKDAYS
OFFSETS = [0, 1, -1, 60, -60, 330, -210, 720, -720, 1439, -1439]


def end_of_month(day):
    return day.replace(day=calendar.monthrange(day.year, day.month)[1])


def first_of_next_month(day):
    return end_of_month(day) + DAY


def day_of(word, today, past):
    """The day that a word names. It raises OverflowError after 9999-12-31."""
    if word == "current":
        return today
    if word == "monthstart":
        return today if today.day == 1 and not past else first_of_next_month(today)
    if word == "monthend":
        last = end_of_month(today)
        return end_of_month(first_of_next_month(today)) if last == today and past else last
    if word in WEEKDAYS:
        day = today + DAY if past else today
        while day.weekday() != WEEKDAYS.index(word):
            day += DAY
        return day
    return datetime.datetime.strptime(word, "%Y%m%d").date()


def due(word, time, now, offset):
    ahead = datetime.timedelta(minutes=offset)
    local = EPOCH + datetime.timedelta(seconds=now) + ahead
    second = local.time() if time == "current" else datetime.datetime.strptime(time, "%H%M%S").time()
    try:
        day = day_of(word, local.date(), second < local.time())
        moment = (datetime.datetime.combine(day, second) - EPOCH - ahead) // datetime.timedelta(seconds=1)
    except OverflowError:
        return "out of range"
    if not 0 <= moment <= LAST_MOMENT:
        return "out of range"
    return "past" if moment < now else str(moment)


def moment_of(year, month, day, hour=0, minute=0, second=0):
    return int((datetime.datetime(year, month, day, hour, minute, second) - EPOCH) / datetime.timedelta(seconds=1))


def local_moment(offset, *parts):
    """The moment at which local time is this, or None if there is none in range."""
    now = moment_of(*parts) - 60 * offset
    return now if 0 <= now <= LAST_MOMENT else None


class Table:
    def __init__(self):
        self.asked = set()

    def begin(self, name):
        print(f"== {name}")

    def ask(self, word, time, now, offset):
        question = (word, time, now, offset)
        if now is None or question in self.asked:
            return
        self.asked.add(question)
        print(f"> due {word} {time} {now} {offset}\n{due(*question)}")


def month_ends(table):
    """At both ends of months, a second before local midnight, at it and after it."""
    table.begin("The ends of months, leap years among them")
    months = [(year, month) for year in (1970, 2000, 2023, 2024, 2100, 2400) for month in range(1, 13)]
    months += [(year, month) for year in (1972, 1999, 2096, 2104, 2200, 2396, 4000, 9996) for month in (2, 3, 12)]
    for at, (year, month) in enumerate(months):
        last = calendar.monthrange(year, month)[1]
        offset = OFFSETS[at % len(OFFSETS)]
        for day, clock in ((1, (0, 0, 0)), (1, (9, 30, 0)), (last - 1, (23, 59, 59)), (last, (12, 0, 0)), (last, (23, 59, 59))):
            now = local_moment(offset, year, month, day, *clock)
            for word in ("monthstart", "monthend"):
                for time in ("current", "000000", "120000", "235959"):
                    table.ask(word, time, now, offset)


def month_ends_at_offsets(table):
    table.begin("The end of February at every offset")
    for year in (2000, 2023, 2024, 2100, 2400):
        for offset in OFFSETS:
            now = moment_of(year, 2, 28, 12)
            for word, time in (("monthend", "115959"), ("monthend", "120000"), ("monthstart", "000000")):
                table.ask(word, time, now, offset)


def weekdays(table):
    table.begin("Weekdays around midnight")
    for at, day in enumerate(range(24, 32)):
        for offset in (0, OFFSETS[at % len(OFFSETS)]):
            for clock, times in (((23, 59, 59), ("235958", "235959")), ((0, 0, 0), ("000000", "current")), ((0, 0, 1), ("000000", "000001"))):
                now = local_moment(offset, 2024, 12, day, *clock)
                for word in WEEKDAYS:
                    for time in times:
                        table.ask(word, time, now, offset)


def days(table):
    table.begin("Days of the calendar, and the present day")
    for at, year in enumerate((1970, 1972, 1999, 2000, 2024, 2100, 2400, 4000, 9999)):
        for month, day in ((1, 1), (2, 28), (3, 1), (7, 4), (12, 31)):
            for offset in (0, OFFSETS[at % len(OFFSETS)], OFFSETS[(at + month) % len(OFFSETS)]):
                now = local_moment(offset, year, month, day, 8, 15, 30)
                for time in ("current", "081529", "081530", "235959"):
                    table.ask(f"{year:04}{month:02}{day:02}", time, now, offset)
                    table.ask("current", time, now, offset)
    for day in ("20000229", "20240229", "24000229", "99991230", "99991231"):
        for offset in OFFSETS:
            table.ask(day, "120000", 0, offset)


def ends_of_time(table):
    table.begin("The first moments and the last ones")
    for offset in OFFSETS:
        for now in (0, 1, 86339, 86340, 86399, 86400, LAST_MOMENT - 86400, LAST_MOMENT - 1, LAST_MOMENT):
            for word in ("current", "monthstart", "monthend", "thu", "fri"):
                for time in ("current", "000000", "235959"):
                    table.ask(word, time, now, offset)
        table.ask("19700101", "000000", 0, offset)
        table.ask("19700101", "235959", 0, offset)
        for day in ("99991230", "99991231"):
            for time in ("000000", "235900", "235959"):
                table.ask(day, time, LAST_MOMENT, offset)
    table.ask("99991230", "235959", LAST_MOMENT, 0)
    table.ask("99991231", "235859", LAST_MOMENT, 1439)
    table.ask("99991231", "235900", LAST_MOMENT, 1439)


def any_words(table):
    table.begin("Anything")
    draw = random.Random(1988)
    for _ in range(1200):
        year = draw.choice([draw.randint(1970, 2100), draw.randint(1970, 9999)])
        month = draw.randint(1, 12)
        last = calendar.monthrange(year, month)[1]
        day = draw.choice([1, last, draw.randint(1, last)])
        offset = draw.choice(OFFSETS + [draw.randint(-1439, 1439)])
        now = local_moment(offset, year, month, day, draw.randint(0, 23), draw.randint(0, 59), draw.randint(0, 59))
        time = f"{draw.randint(0, 23):02}{draw.randint(0, 59):02}{draw.randint(0, 59):02}"
        word = draw.choice(WORDS + [f"{year:04}{month:02}{draw.randint(1, last):02}"])
        table.ask(word, draw.choice(["current", time, time, time]), now, offset)


def main():
    table = Table()
    table.begin("What a word names at the first moments")
    for question in (
        ("thu", "000000", 1000, 0),
        ("thu", "001640", 1000, 0),
        ("monthstart", "000000", 1000, 0),
        ("current", "001639", 1000, 0),
        ("19700101", "000000", 1000, 60),
    ):
        table.ask(*question)
    month_ends(table)
    month_ends_at_offsets(table)
    weekdays(table)
    days(table)
    ends_of_time(table)
    any_words(table)


main()
