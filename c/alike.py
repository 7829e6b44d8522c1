"""The same calls of tests/edges.c to several libraries, which have to answer with equal results and equal bytes."""
import collections
import concurrent.futures

import exports
from testing import ran

COUNT = 20000
# How often each call is made at least.
LEAST = 100


class Played:
    """The calls of a seed to a library: a line for each, and what is wrong with them."""

    def __init__(self, words, seed):
        self.words = [*words, COUNT, seed]
        done = ran([*self.words, "calls"])
        self.calls, self.faults = done.stdout.splitlines(), done.stderr.splitlines()
        if done.returncode and not self.faults:
            self.faults = [f"status {done.returncode}"]

    def shown(self, number):
        """The result and the arrays of a call, by their names."""
        return dict(line.split(" ") for line in ran([*self.words, number]).stdout.splitlines())


def unequal(array, one, other):
    """How two results, or two arrays of the same length in hex, differ."""
    if array == "result":
        return f"result {one} and {other}"
    at = next(at for at in range(0, len(one), 2) if one[at:at + 2] != other[at:at + 2])
    return f"of {array} byte {at // 2} is {one[at:at + 2]} and {other[at:at + 2]}"


def difference(one, other):
    """The first call that two libraries answer otherwise, or None."""
    for ours, theirs in zip(one.calls, other.calls):
        if ours != theirs:
            number, name = ours.split()[:2]
            first, second = one.shown(number), other.shown(number)
            parts = [unequal(it, first[it], second[it]) for it in first if first[it] != second[it]]
            return f"call {number}, {name}: {', '.join(parts) or 'unequal, but not when made again'}"
    return None


def compared(programs, seed):
    """Makes the calls by each program, prints what is wrong, and gives how many things are."""
    with concurrent.futures.ThreadPoolExecutor(2) as pool:
        played = dict(zip(programs, pool.map(lambda words: Played(words, seed), programs.values())))
    wrong = [f"{name}: {fault}" for name, it in played.items() for fault in it.faults]
    first, *others = played
    for other in others:
        found = difference(played[first], played[other])
        wrong += [f"{first} and {other}: {found}"] if found else []
    made = collections.Counter(line.split()[1] for line in played[first].calls)
    # (a run ends at its first fault)
    wrong = wrong or [f"{it.name}: {made[it.name]} calls" for it in exports.exports() if made[it.name] < LEAST]
    print(*wrong, sep="\n", end="\n" * bool(wrong))
    libraries = f"{len(programs)} libraries" if others else "1 library"
    found = f"{len(wrong)} faults" if wrong else "no difference"
    print(f"{len(played[first].calls)} calls of {len(made)} functions, {libraries}: {found}")
    return len(wrong)
