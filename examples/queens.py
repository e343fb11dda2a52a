#!/usr/bin/env python3
"""Writes the formula of N queens on a board of N rows and columns, none of which attacks another.

    queens.py N FORMULA

The variable N * row + column + 1 says that a queen stands there.
"""
import sys
from itertools import combinations


def attacks(a, b):
    (row, column), (other_row, other_column) = a, b
    return row == other_row or column == other_column or abs(row - other_row) == abs(column - other_column)


def main(size, path):
    squares = [(row, column) for row in range(size) for column in range(size)]
    variable = {square: number for number, square in enumerate(squares, 1)}
    clauses = [[variable[row, column] for column in range(size)] for row in range(size)]
    clauses += [[-variable[a], -variable[b]] for a, b in combinations(squares, 2) if attacks(a, b)]
    with open(path, "w") as formula:
        print("c", size, "queens", file=formula)
        print("p cnf", len(squares), len(clauses), file=formula)
        for clause in clauses:
            print(*clause, 0, file=formula)


main(int(sys.argv[1]), sys.argv[2])
