"""The files that tests/misuse.py gives to the programs."""

import bz2
import gzip
import lzma
import os
import subprocess
import sys
import tempfile

TOP = os.path.dirname(os.path.dirname(os.path.abspath(__file__)))

# no model: all clauses over two variables, one of them twice
FORMULA = b"p cnf 2 5\n1 2 0\n1 2 0\n-1 2 0\n1 -2 0\n-1 -2 0\n"
DRAT = b"2 0\n0\n"
DRAT_DELETES = b"d 1 2 0\n2 0\n0\n"
BINARY = b"a\x04\x00a\x00"
BINARY_DELETES = b"d\x02\x04\x00a\x04\x00a\x00"
LRAT = b"6 2 0 1 3 0\n7 0 6 4 5 0\n"
LRAT_DELETES = b"6 d 2 0\n7 2 0 1 3 0\n8 0 7 4 5 0\n"
BINARY_LRAT = b"a\x0c\x04\x00\x02\x06\x00a\x0e\x00\x0c\x08\x0a\x00"
FRAT_ADDS = b"a 6 2 0 l 1 3 0\nd 2 1 2 0\na 7 0 l 6 4 5 0\n"
FRAT = b"o 1 1 2 0\no 2 1 2 0\no 3 -1 2 0\no 4 1 -2 0\no 5 -1 -2 0\n" + FRAT_ADDS + b"f 7 0\n"
BINARY_FRAT = b"o\x01\x02\x04\x00a\x06\x04\x00l\x01\x03\x00a\x07\x00"
VERIPB = b"pseudo-Boolean proof version 2.0\nf 5\nrup 1 x2 >= 1 ;\n"

SATISFIABLE = b"p cnf 2 1\n1 2 0\n"
MODEL = b"s SATISFIABLE\nv 1 2 0\n"
MINISAT = b"SAT\n1 2 0\n"
CLASP = b"clasp version 3.3.5\nReading from g.cnf\nSolving...\nAnswer: 1\n1 2\nSATISFIABLE\n"

# the literal 2 is root-level by the second clause
CHAIN = b"p cnf 4 4\n1 0\n-1 2 0\n-2 3 4 0\n-2 3 -4 0\n"

# as long as what CaDiCaL writes before its answer
BANNER = b"c --- [ banner ] ------------------------------------------------------------\nc\n" * 20


def zstd(content):
    """The content, of less than 256 bytes, as one stored block of a frame, which needs no library."""
    size = len(content)
    return b"\x28\xb5\x2f\xfd\x20" + bytes([size]) + (size << 3 | 1).to_bytes(3, "little") + content


# how contents are compressed
PACKED = {"gzip": lambda content: gzip.compress(content, mtime=0), "xz": lzma.compress, "bzip2": bz2.compress, "zstd": zstd}


def pigeons():
    """A formula, and a proof of it whose steps list witnesses."""
    with tempfile.TemporaryDirectory() as room:
        subprocess.run([sys.executable, f"{TOP}/examples/pigeonhole_pr.py", "4", f"{room}/f", f"{room}/p"], check=True)
        with open(f"{room}/f", "rb") as formula, open(f"{room}/p", "rb") as proof:
            return formula.read(), proof.read()
