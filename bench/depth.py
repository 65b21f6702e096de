#!/usr/bin/env python3
"""How deep the trees of wm_ordered are: depth.py [COUNT] takes so many keys, rising, falling and in a mixed order, with the
weights of crates/wm_ordered/src/weight.rt, and prints at which level a pair lies on average, and the deepest."""
import random
import sys

BITS = (1 << 64) - 1


def weight(place):
    spread = (place + 1) * 0x9E3779B97F4A7C15 & BITS
    once = (spread ^ spread >> 30) * 0xBF58476D1CE4E5B9 & BITS
    twice = (once ^ once >> 27) * 0x94D049BB133111EB & BITS
    return twice ^ twice >> 31


def sides(places):
    """The tree of nodes at these places, given in the order of their keys: the root and the sons of each."""
    left, right, path = {}, {}, []
    for place in places:
        below = None
        while path and weight(path[-1]) < weight(place):
            below = path.pop()
        left[place] = below
        if path:
            right[path[-1]] = place
        path.append(place)
    return path[0], left, right


def levels(places):
    root, left, right = sides(places)
    found, due = [], [(root, 1)]
    while due:
        place, level = due.pop()
        found.append(level)
        due += [(son, level + 1) for son in (left[place], right.get(place)) if son is not None]
    return found


def main():
    count = int(sys.argv[1]) if len(sys.argv) > 1 else 100_000
    rising = list(range(count))
    mixed = random.Random(1).sample(rising, count)
    for name, places in ("rising", rising), ("falling", rising[::-1]), ("mixed", mixed):
        found = levels(places)
        print(f"{name}: level {sum(found) / count:.1f} on average, {max(found)} the deepest")


main()
