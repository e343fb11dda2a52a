#!/usr/bin/env python3
"""Tries how examples/check-all runs: lists, shards and what --merge makes of them, also by GNU parallel as the help shows it;
several files at a time; 20,000 files; a full disk; wrong words.

    tests/check_all_many.py [CASE..]

LRAT_CHECK, DRAT_FORWARD and MODEL_CHECK name the programs; they are those in bin/ otherwise. The last line is "N passed, M
failed".
"""

import csv
import os
import re
import resource
import shutil
import subprocess
import sys
import tempfile
import time

from check_all import CHECK_ALL, CHECKERS, TOP, check, copy_with_old_date, four, main, put, script, start


def lists(room):
    files = four(room)
    os.mkdir(f"{room}/else")
    for file in files:
        shutil.move(file, f"{room}/else")
    lines = "model.cnf\telse/model.out\n\ntext.cnf\telse/text.drat\nelse/lrat.lrat\nbinary.cnf\telse/binary.bin"
    found = check(room, "--list", "-", input=lines.encode())
    yield "formulas and files", found.is_whole(1, 3, 4) and "lrat.lrat" not in found.verified
    with open(f"{room}/list", "w", encoding="utf-8") as text:
        text.write(lines.replace("else/lrat", "lrat.cnf\telse/lrat"))
    yield "a list in a file", check(room, "--list", "list").is_whole(0, 4, 4)
    yield "a list beside words", check(room, "--list", "list", "none.drat").is_whole(1, 4, 5)
    yield "a file that is listed twice", check(room, "--list", "list", "--list", "list").is_whole(0, 4, 4)
    for number, line in enumerate(("a\tb\tc.drat", "a\t", "\tb.drat", "text.cnf", "other.cnf\telse/text.drat\ntext.cnf\telse/text.drat")):
        yield f"a wrong line {number}", check(room, "--list", "-", input=line.encode()).status == 6
    yield "a list that isn't there", check(room, "--list", "none").status == 3
    yield "an empty list", check(room, "--list", "/dev/null").is_whole(1, 0, 0)
    os.mkdir(f"{room}/empty")
    yield "a folder with nothing to check", check(room, "empty").is_whole(1, 0, 0)
    os.unlink(put(room, "pipe", "e.cnf", "e.drat"))
    os.mkfifo(f"{room}/pipe.drat")
    found = check(room, "pipe.drat")
    yield "a pipe", found.is_whole(1, 0, 1) and found.said("pipe.drat")[1] == "pipe.drat: not a regular file"


def usage(room):
    four(room)
    for words in (["-j0"], ["-j", "x"], ["-j-1"], ["--shard", "0/2"], ["--shard", "3/2"], ["--shard", "2"], ["--shard", "1/2/3"],
                  ["--shard=-1/2"], ["--shard", "1/2", "--merge"], ["--json", "--csv"], ["--fast"], ["--merg"], ["none"],
                  ["text.cnf"], ["--help"], ["-h"]):
        run = start([*words, "."], room)
        yield f"status 6: {' '.join(words)}", run.returncode == 6 and not os.path.exists(f"{room}/text.drat.verdict")
    told = start(["--help"], room).stdout.decode()
    yield "help tells the statuses", [line[:3] for line in told.splitlines() if re.match("  [0-9]  ", line)] == [
        f"  {status}" for status in (0, 1, 3, 5, 6)]
    table = list(csv.DictReader(start(["--csv", "."], room).stdout.decode().splitlines()))
    yield "CSV", [(row["file"], row["formula"], row["verified"], row["verdict"], row["status"]) for row in table] == [
        ("./binary.bin", "./binary.cnf", "True", "VERIFIED", "0"), ("./lrat.lrat", "./lrat.cnf", "True", "VERIFIED", "0"),
        ("./model.out", "./model.cnf", "True", "MODEL VERIFIED", "0"), ("./text.drat", "./text.cnf", "True", "VERIFIED", "0")]


def at_a_time(room):
    for name in "abc":
        put(room, name, "e.cnf", "e.drat")
    wait = script(f"{room}/wait", f"touch {room}/$$.began", "for i in 1 2 3 4 5 6 7 8 9 10 11 12 13 14 15 16 17 18 19 20; do",
                  f"    set -- {room}/*.began; [ $# -lt 3 ] || {{ echo s VERIFIED; exit 0; }}; sleep 0.5", "done; exit 1")
    yield "three files are checked at a time", check(room, "-j3", ".", env={"DRAT_FORWARD": wait}).is_whole(0, 3, 3)


def full_disk(room):
    file = put(room, "text", "e.cnf", "e.drat")
    with open("/dev/full", "wb") as full:
        run = subprocess.run([CHECK_ALL, room], stdout=full, stderr=subprocess.PIPE, env={**os.environ, **CHECKERS}, check=False)
    yield "a table that isn't written", run.returncode == 5 and b"No space left on device" in run.stderr
    run = subprocess.run(["sh", "-c", f'"{CHECK_ALL}" "{room}" >&-'], stderr=subprocess.PIPE, env={**os.environ, **CHECKERS}, check=False)
    yield "standard output is closed", run.returncode == 5

    os.unlink(f"{file}.verdict")
    few = 100
    found = check(room, preexec_fn=lambda: resource.setrlimit(resource.RLIMIT_FSIZE, (few, few)))
    yield "a verdict that isn't written", found.is_whole(5, 0, 1) and found.said("text.drat")[1] == "not written: File too large"
    yield "nothing is left of it", sorted(os.listdir(room)) == ["text.cnf", "text.drat", "text.drat.errors", "text.drat.report"]
    yield "--merge misses it", check(room, "--merge", ".").is_whole(1, 0, 1)

    os.mkdir(f"{room}/disk")
    runs = f"mount -t tmpfs -o size=64k none {room}/disk && cp {room}/text.cnf {room}/text.drat {room}/disk"
    if subprocess.run(["unshare", "-rm", "sh", "-c", runs], capture_output=True, check=False).returncode:
        print("SKIPPED: a disk that is full: here nobody may mount one")
        return
    fill = f"cat /dev/zero > {room}/disk/more"
    again = f'"{CHECK_ALL}" "$@" {room}/disk'
    for name, before, first in (("at first", "true", "0 of 1 verified"), ("later", f"{again} > /dev/null", "1 of 1 verified")):
        ended = f"{runs} && {before}; {fill}; {again}; echo $?; {again} --options=--strict; echo $?; {again} --merge --options=--strict; echo $?"
        run = subprocess.run(["unshare", "-rm", "sh", "-c", ended], env={**os.environ, **CHECKERS}, capture_output=True, check=False)
        said = [line for line in run.stdout.decode().splitlines() if re.match(r"\d+( of |$)", line)]
        yield f"a disk that is full {name}", [line.split(",")[0] for line in said] == [
            first, "0" if first[0] == "1" else "5", "0 of 1 verified", "5", "0 of 1 verified", "1"]


def shards(room):
    names = [f"p{number}" for number in range(7)]
    for name in names:
        put(room, name, "e.cnf", "e.drat")
    everywhere = []
    for which in (1, 2, 3):
        yield f"--merge before shard {which}", check(room, "--merge", ".").is_whole(1, len(everywhere), 7)
        found = check(room, "--shard", f"{which}/3", ".")
        everywhere += found.rows
        yield f"shard {which}", found.status == 0 and len(found.rows) == (3, 2, 2)[which - 1]
    yield "each file is in one shard", sorted(everywhere) == [f"{name}.drat" for name in names]
    yield "--merge after all shards", check(room, "--merge", ".").is_whole(0, 7, 7)
    yield "--merge of a part", check(room, "--merge", "p1.drat", "p5.drat").is_whole(0, 2, 2)
    dates = {name: os.stat(f"{room}/{name}.drat.verdict").st_ino for name in names}
    yield "a shard takes verdicts over", check(room, "--shard", "2/3", ".").status == 0 and dates == {
        name: os.stat(f"{room}/{name}.drat.verdict").st_ino for name in names}

    copy_with_old_date("g.cnf", f"{room}/p3.cnf")
    found = check(room, "--merge", ".")
    yield "--merge finds a stale verdict", found.is_whole(1, 6, 7) and found.said("p3.drat")[1] == "stale: other formula"
    os.unlink(f"{room}/p4.drat.verdict")
    yield "--merge finds a lost verdict", check(room, "--merge", ".").is_whole(1, 5, 7)
    os.unlink(f"{room}/p5.drat")
    found = check(room, "--merge", ".")
    yield "--merge finds a lost proof", found.is_whole(1, 4, 7) and "p5.cnf" in found.rows
    found = check(room, "--shard", "1/7", ".")
    yield "a shard of a refused file", [check(room, "--shard", f"{which}/7", ".").status for which in range(1, 8)].count(1) == 2
    yield "--merge of a refused file", check(room, "--merge", ".").is_whole(1, 5, 7)
    yield "a shard behind the end", check(room, "--shard", "8/8", ".").is_whole(0, 0, 0)


def side_by_side(room):
    for number in range(20):
        put(room, str(number), "e.cnf", "e.drat")
    runs = [subprocess.Popen([CHECK_ALL, "-j2", "."], cwd=room, env={**os.environ, **CHECKERS}, stdout=subprocess.DEVNULL)
            for _ in range(3)]
    yield "three runs on one folder", [run.wait() for run in runs] == [0, 0, 0]
    yield "all verdicts are whole", check(room, "--merge", ".").is_whole(0, 20, 20)
    yield "nothing else is left", len(os.listdir(room)) == 20 * 5


def by_parallel(room):
    """The lines of the help, on this machine alone."""
    said = subprocess.run(["parallel", "--version"], capture_output=True, check=False) if shutil.which("parallel") else None
    if said is None or b"GNU parallel" not in said.stdout:
        print("SKIPPED: GNU parallel is not installed")
        return
    os.mkdir(f"{room}/runs")
    for number in range(40):
        put(f"{room}/runs", str(number), "e.cnf", "e.drat")
    lines = [line.strip() for line in start(["--help"], room).stdout.decode().splitlines() if line.startswith("    ")]
    shown = [line for line in lines if "parallel" in line or "--merge" in line and "check-all" in line]
    yield "the help shows two lines", len(shown) == 2 and "-S one,two -j1 " in shown[0]
    env = {**os.environ, **CHECKERS, "PATH": f"{TOP}/examples:{os.environ['PATH']}", "HOME": room}
    here = shown[0].replace("-S one,two -j1", "-S 4/:")
    run = subprocess.run(["bash", "-c", here], cwd=room, env=env, capture_output=True, check=False)
    totals = re.findall(r"^(\d+) of (\d+) verified", run.stdout.decode(), re.MULTILINE)
    yield "16 shards by parallel", run.returncode == 0 and len(totals) == 16 and sum(int(total[0]) for total in totals) == 40
    run = subprocess.run(["bash", "-c", shown[1]], cwd=room, env=env, capture_output=True, check=False)
    yield "they are merged", run.returncode == 0 and b"\n40 of 40 verified, " in run.stdout
    put(f"{room}/runs", "7", "g.cnf", "neither_rup_nor_rat.drat")
    run = subprocess.run(["bash", "-c", here], cwd=room, env=env, capture_output=True, check=False)
    yield "parallel tells of a shard that failed", run.returncode == 1


def twenty_thousand(_):
    """On a checker that does nothing but answer: the verdicts of the real ones are looked at elsewhere."""
    count = 20000
    with tempfile.TemporaryDirectory(dir="/dev/shm" if os.access("/dev/shm", os.W_OK) else None) as room:
        env = {"DRAT_FORWARD": script(f"{room}/quick", "echo s VERIFIED")}
        os.mkdir(f"{room}/runs")
        for number in range(count):
            with open(f"{room}/runs/{number}.cnf", "w", encoding="utf-8") as text:
                text.write(f"c {number}\n")
            with open(f"{room}/runs/{number}.drat", "w", encoding="utf-8") as text:
                text.write("0\n")
        began = time.monotonic()
        yield "20,000 files", check(room, f"-j{os.cpu_count()}", "runs", env=env).is_whole(0, count, count)
        took = time.monotonic() - began
        print(f"20,000 files took {took:.0f} s")
        os.unlink(f"{room}/runs/12345.drat.verdict")
        found = check(room, "--merge", f"-j{os.cpu_count()}", "runs", env=env)
        yield "one verdict of 20,000 is lost", found.is_whole(1, count - 1, count) and found.said("12345.drat")[1] == "no verdict"


if __name__ == "__main__":
    sys.exit(main([lists, usage, at_a_time, full_disk, shards, side_by_side, by_parallel, twenty_thousand]))
