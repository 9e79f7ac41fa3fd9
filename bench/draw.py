"""Draws the jobs of the benchmark: the same bytes each time, from numbers that stand here."""


class Draws:
    """Numbers from a seed, by a 64-bit xorshift, so that no library's generator decides what is drawn."""

    def __init__(self, seed):
        self.state = (seed * 0x9E3779B97F4A7C15 + 1) % 2**64 or 1

    def bits(self):
        x = self.state
        x ^= (x << 13) % 2**64
        x ^= x >> 7
        x ^= (x << 17) % 2**64
        self.state = x
        return x >> 11

    def below(self, n):
        return self.bits() % n

    def chance(self, percent):
        return self.below(100) < percent


def group(channels):
    """The record of a group with a list."""
    return b'\x01' + sum(1 << c for c in channels).to_bytes(8, 'big')


def gap(a, b, d):
    """The record of a rule that two channels differ by at least d."""
    return b'\x02' + a.to_bytes(2, 'big') + b.to_bytes(2, 'big') + bytes([d])


def table(a, b, rows):
    """The record of a rule that permits just the pairs of its rows."""
    return b'\x03' + a.to_bytes(2, 'big') + b.to_bytes(2, 'big') + b''.join(r.to_bytes(8, 'big') for r in rows)


def end(groups, rules):
    return b'\x00' + groups.to_bytes(2, 'big') + rules.to_bytes(2, 'big')


def pairs(draws, n, m):
    """m different pairs of n groups."""
    seen = set()
    while len(seen) < m:
        a, b = draws.below(n), draws.below(n)
        if a != b:
            seen.add((min(a, b), max(a, b)))
    return sorted(seen)


def lists(draws, n, c, percent):
    """n lists, each of the channels below c with so many percent of them, and of one at least."""
    out = []
    for _ in range(n):
        picked = [k for k in range(c) if draws.chance(percent)]
        out.append(picked or [draws.below(c)])
    return out


def graph(seed, n, c, m, percent=100, gaps=(1, 1, 1, 2)):
    """A random conflict graph: m pairs of n groups, each with a gap drawn from `gaps`."""
    draws = Draws(seed)
    records = [group(channels) for channels in lists(draws, n, c, percent)]
    rules = [gap(a, b, gaps[draws.below(len(gaps))]) for a, b in pairs(draws, n, m)]
    return b''.join(records + rules) + end(n, len(rules))


def street(seed, n, c, percent, reach):
    """Groups in a row, each at odds with those within its reach: next neighbours by the largest gap."""
    draws = Draws(seed)
    records = [group(channels) for channels in lists(draws, n, c, percent)]
    rules = [gap(a, a + k + 1, d) for a in range(n) for k, d in enumerate(reach) if a + k + 1 < n]
    return b''.join(records + rules) + end(n, len(rules))


def tables(seed, n, c, m, forbidden):
    """Tables on m pairs of n groups, each of which forbids so many percent of the pairs of channels."""
    draws = Draws(seed)
    records = [group(range(c)) for _ in range(n)]
    rules = []
    for a, b in pairs(draws, n, m):
        rows = [sum(1 << y for y in range(c) if not draws.chance(forbidden)) if x < c else 0 for x in range(64)]
        rules.append(table(a, b, rows))
    return b''.join(records + rules) + end(n, len(rules))
