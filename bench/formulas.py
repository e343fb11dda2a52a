#!/usr/bin/env python3
"""Writes formulas without a model, on which solvers write proofs of a megabyte to some hundred. The output depends on the words
of the command alone.

    formulas.py random VARIABLES CLAUSES SEED FORMULA
        Clauses of three literals at random. More than 4.3 clauses a variable have hardly ever a model.
    formulas.py order N FORMULA
        A strict order of N elements, none of which is the least.
    formulas.py waerden A B N FORMULA
        The numbers from 1 to N in two colours, with no arithmetic progression of A in the one and of B in the other.
    formulas.py dominoes N FORMULA
        Dominoes that cover a board of N rows and columns but for two opposite corners.
    formulas.py sums BITS FORMULA
        Two circuits for a + b + c that differ: by ripple carry, and by carry select.
    formulas.py products BITS FORMULA
        Two circuits for a product that differ: the rows of a by the bits of b, and the rows of b by the bits of a.
    formulas.py sorters N FORMULA
        Two networks that sort N bits and differ: by neighbours that change places, and Batcher's.
    formulas.py parity N SEED FORMULA
        N bits of which the sum is even by one order of the additions, and odd by another one at random.
    formulas.py ring STATIONS STEPS FORMULA
        A token in a ring, in each step passed on or kept as free bits say. After STEPS steps two stations have it.
    formulas.py hidden VARIABLES CLAUSES SEED HOLES FORMULA
        One more pigeon than holes, hidden in many clauses at random of other variables.
    formulas.py many VARIABLES CLAUSES SEED FORMULA
        Clauses of three literals at random, and behind them the four of two further variables.
"""

import os
import sys
from itertools import combinations

sys.path.insert(0, os.path.join(os.path.dirname(os.path.abspath(__file__)), "..", "examples"))
from generate import numbers  # noqa: E402
from pigeonhole import formula as pigeons_in  # noqa: E402
from pigeonhole import sits  # noqa: E402

SECTION = 8  # the bits of a carry-select adder that are added at once


class Random:
    """Random numbers that every machine has the same."""

    def __init__(self, seed):
        self.source = numbers(seed)

    def below(self, bound):
        return (next(self.source) >> 8) % bound

    def clause(self, variables, first=1):
        """Three literals of different variables."""
        chosen = set()
        while len(chosen) < 3:
            chosen.add(first + self.below(variables))
        return [it if self.below(2) else -it for it in sorted(chosen)]

    def shuffled(self, items):
        items = list(items)
        for last in range(len(items) - 1, 0, -1):
            other = self.below(last + 1)
            items[last], items[other] = items[other], items[last]
        return items


class Circuit:
    """Gates, each a new variable with the clauses that define it (Tseitin)."""

    def __init__(self, inputs=0):
        self.top = inputs
        self.clauses = []

    def new(self, count):
        self.top += count
        return list(range(self.top - count + 1, self.top + 1))

    def gate(self, *clauses):
        """A gate whose definition names it as 0, in clauses whose other literals stand beside its sign."""
        (it,) = self.new(1)
        self.clauses += [[sign * it, *rest] for sign, *rest in clauses]
        return it

    def both(self, a, b):
        return self.gate((-1, a), (-1, b), (1, -a, -b))

    def either(self, a, b):
        return -self.both(-a, -b)

    def differ(self, a, b):
        return self.gate((-1, a, b), (-1, -a, -b), (1, -a, b), (1, a, -b))

    def chosen(self, by, a, b):
        """a where `by` is true, and b otherwise."""
        return self.gate((-1, -by, a), (1, -by, -a), (-1, by, b), (1, by, -b))

    def most(self, a, b, c):
        return self.gate((1, -a, -b), (1, -a, -c), (1, -b, -c), (-1, a, b), (-1, a, c), (-1, b, c))

    def constant(self, value):
        (it,) = self.new(1)
        self.clauses.append([it if value else -it])
        return it

    def sum_and_carry(self, a, b, c):
        return self.differ(self.differ(a, b), c), self.most(a, b, c)

    def unequal(self, some, others):
        """Says that two words differ."""
        self.clauses.append([self.differ(a, b) for a, b in zip(some, others, strict=True)])
        return self.clauses


def ripple(circuit, some, others, carry):
    """The sum of two words by ripple carry, and the last carry."""
    bits = []
    for a, b in zip(some, others, strict=True):
        bit, carry = circuit.sum_and_carry(a, b, carry)
        bits.append(bit)
    return bits, carry


def select(circuit, some, others, carry):
    """The same by carry select: each section is added for both carries, and the carry that comes chooses."""
    bits = []
    for at in range(0, len(some), SECTION):
        section = some[at : at + SECTION], others[at : at + SECTION]
        (low, low_carry), (high, high_carry) = (ripple(circuit, *section, circuit.constant(it)) for it in (False, True))
        bits += [circuit.chosen(carry, one, zero) for one, zero in zip(high, low, strict=True)]
        carry = circuit.chosen(carry, high_carry, low_carry)
    return bits, carry


def sums(bits):
    circuit = Circuit()
    a, b, c = (circuit.new(bits) for _ in range(3))
    no = circuit.constant(False)
    one = ripple(circuit, ripple(circuit, a, b, no)[0], c, no)[0]
    other = select(circuit, a, select(circuit, b, c, no)[0], no)[0]
    return circuit.unequal(one, other)


def product(circuit, some, others):
    """The product of two words of one length: a row for each bit of the other, added by ripple carry."""
    no = circuit.constant(False)
    length = len(some)
    total = [no] * (2 * length)
    for place, bit in enumerate(others):
        row = [circuit.both(it, bit) for it in some]
        total[place : place + length], total[place + length] = ripple(circuit, total[place : place + length], row, no)
    return total


def products(bits):
    circuit = Circuit()
    a, b = circuit.new(bits), circuit.new(bits)
    return circuit.unequal(product(circuit, a, b), product(circuit, b, a))


def by_neighbours(n):
    return [(i, i + 1) for last in range(n - 1, 0, -1) for i in range(last)]


def batcher(n):
    """The comparisons of Batcher's merge exchange sort."""
    pairs, p = [], 1
    while p < n:
        k = p
        while k >= 1:
            for j in range(k % p, n - k, 2 * k):
                for i in range(j, min(j + k, n - k)):
                    if i // (2 * p) == (i + k) // (2 * p):
                        pairs.append((i, i + k))
            k //= 2
        p *= 2
    return pairs


def sorters(n):
    circuit = Circuit()
    bits = circuit.new(n)
    ends = []
    for network in (by_neighbours(n), batcher(n)):
        now = list(bits)
        for i, j in network:
            now[i], now[j] = circuit.both(now[i], now[j]), circuit.either(now[i], now[j])
        ends.append(now)
    return circuit.unequal(*ends)


def parity(n, seed):
    circuit = Circuit()
    bits = circuit.new(n)
    for order, odd in ((bits, True), (Random(seed).shuffled(bits), False)):
        total = order[0]
        for bit in order[1:]:
            total = circuit.differ(total, bit)
        circuit.clauses.append([total if odd else -total])
    return circuit.clauses


def ring(stations, steps):
    circuit = Circuit()
    now = circuit.new(stations)
    clauses = circuit.clauses
    clauses += [[now[0]]] + [[-it] for it in now[1:]]
    for _ in range(steps):
        passes = circuit.new(stations)
        # a station has it where it had it and doesn't pass it on, or where the one before it does
        now = [
            circuit.either(circuit.both(now[i], -passes[i]), circuit.both(now[i - 1], passes[i - 1]))
            for i in range(stations)
        ]
    pairs = [circuit.both(a, b) for a, b in combinations(now, 2)]
    clauses.append(pairs)
    return clauses


def random(variables, count, seed):
    source = Random(seed)
    return [source.clause(variables) for _ in range(count)]


def order(n):
    """The variable of (i, j), for i < j, says that i is less than j."""
    number = {pair: it for it, pair in enumerate(combinations(range(n), 2), 1)}

    def less(i, j):
        return number[i, j] if i < j else -number[j, i]

    clauses = [[less(j, i) for j in range(n) if j != i] for i in range(n)]
    for i, j, k in combinations(range(n), 3):
        clauses += [[-less(i, j), -less(j, k), less(i, k)], [less(i, j), less(j, k), -less(i, k)]]
    return clauses


def waerden(a, b, n):
    clauses = []
    for length, sign in ((a, 1), (b, -1)):
        for step in range(1, n):
            for first in range(1, n - step * (length - 1) + 1):
                clauses.append([sign * (first + step * i) for i in range(length)])
    return clauses


def dominoes(n):
    """A variable for each two squares beside each other; each square is in exactly one of them that is true."""
    squares = {(i, j) for i in range(n) for j in range(n)} - {(0, 0), (n - 1, n - 1)}
    at = {it: [] for it in sorted(squares)}
    top = 0
    for i, j in sorted(squares):
        for other in ((i, j + 1), (i + 1, j)):
            if other in squares:
                top += 1
                at[i, j].append(top)
                at[other].append(top)
    clauses = list(at.values())
    for those in at.values():
        clauses += [[-a, -b] for a, b in combinations(those, 2)]
    return clauses


def hidden(variables, count, seed, holes):
    source = Random(seed)
    clauses = [source.clause(variables) for _ in range(count)]
    clauses += [list(it) for _, it in pigeons_in(sits(variables + 1, holes), holes)]
    return source.shuffled(clauses)


def many(variables, count, seed):
    a, b = variables + 1, variables + 2
    return random(variables, count, seed) + [[a, b], [a, -b], [-a, b], [-a, -b]]


KINDS = {it.__name__: it for it in (random, order, waerden, dominoes, sums, products, sorters, parity, ring, hidden, many)}


def main(words):
    kind = KINDS.get(words[0]) if words else None
    if kind is None or len(words) != kind.__code__.co_argcount + 2 or not all(it.isdigit() for it in words[1:-1]):
        sys.exit(__doc__)
    clauses = kind(*map(int, words[1:-1]))
    with open(words[-1], "w", encoding="ascii") as it:
        it.write(f"c {' '.join(words[:-1])}, by formulas.py\n")
        it.write(f"p cnf {max(abs(literal) for clause in clauses for literal in clause)} {len(clauses)}\n")
        it.writelines(" ".join(map(str, [*clause, 0])) + "\n" for clause in clauses)


if __name__ == "__main__":
    main(sys.argv[1:])
