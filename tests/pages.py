#!/usr/bin/env python3
"""Runs every command that README, the manual pages and the heads of the examples show.

In place of solvers stand scripts that write proofs and models of examples/. Where a solver crashes, is missing, answers 0,
knows nothing or lies, each command has to end with another status than 0, and to verify nothing. A command that isn't run here
is run by a file that ELSEWHERE names. One that is neither, and one that no page has any more, is a failure.

LRAT_CHECK, DRAT_FORWARD and MODEL_CHECK name the programs; they are those in bin/ otherwise. The last line is "N passed, M
failed".
"""

import glob
import gzip
import os
import re
import shutil
import subprocess
import sys
import tempfile
from collections import namedtuple

TOP = os.path.dirname(os.path.dirname(os.path.abspath(__file__)))
TOOLS = ("drat-forward", "lrat-check", "model-check")

# commands of a page; the formula of examples/ that formula.cnf is; the last line and the status; whether a solver is run
Use = namedtuple("Use", "page commands formula last status solver", defaults=("", 0, False))
Shown = namedtuple("Shown", "page command output")

PHP, QUEENS, E = "pigeonhole-5", "queens-6", "e"
NO, YES, MODEL = "s NOT VERIFIED", "s VERIFIED", "s MODEL VERIFIED"
DRAT, BINARY = "drat-forward formula.cnf proof.drat", "drat-forward --binary formula.cnf proof.bin"
MINISAT = """sed 's/^SAT$/s SATISFIABLE/; s/^UNSAT$/s UNSATISFIABLE/
    s/^[-0-9]/v &/' result | model-check formula.cnf"""

USES = [
    Use("README.md", ["drat-forward examples/e.cnf examples/e.drat"], E, YES),
    Use("README.md", [DRAT], PHP, YES),
    Use("README.md", [BINARY], PHP, YES),
    Use("README.md", ["drat-forward --keep-units formula.cnf proof.drat"], "kept_units", YES),
    Use("README.md", ["lrat-check formula.cnf proof.lrat"], E, YES),
    Use("README.md", ["model-check formula.cnf output"], QUEENS, MODEL),
    Use("README.md", ["cadical -q --no-binary formula.cnf - | grep -v '^[sv]' | drat-forward formula.cnf"],
        PHP, YES, solver=True),
    Use("README.md", ["cadical -q formula.cnf /dev/stderr 2>&1 >/dev/null | drat-forward --binary formula.cnf"],
        PHP, YES, solver=True),
    Use("README.md", ["cadical -q formula.cnf | model-check formula.cnf"], QUEENS, MODEL, solver=True),
    Use("README.md", ["zcat proof.bin.gz | drat-forward --binary formula.cnf"], PHP, YES),
    Use("README.md", ["pv proof.drat | drat-forward formula.cnf"], PHP, YES),
    Use("README.md", ["answer=0"], PHP, "UNSATISFIABLE", solver=True),
    Use("README.md", ["answer=0"], QUEENS, "SATISFIABLE", solver=True),
    Use("README.md", ["drat-forward --version"], E, "", 6),
    Use("README.md", ["drat-trim formula.cnf proof.drat"], PHP, YES),
    Use("README.md", ["drat-trim formula.cnf proof.drat -L proof.lrat", "lrat-check formula.cnf proof.lrat"], E, YES),
    Use("man/drat-forward.1", ["cadical -q formula.cnf proof.bin >/dev/null", BINARY], PHP, YES, solver=True),
    Use("man/drat-forward.1", ["cadical -q formula.cnf /dev/stderr 2>&1 >/dev/null |\n    drat-forward --binary formula.cnf"],
        PHP, YES, solver=True),
    Use("man/drat-forward.1", ["zcat formula.cnf.gz | drat-forward - proof.drat"], PHP, YES),
    Use("man/drat-forward.1", ["drat-forward formula.cnf proof.drat >/dev/null && echo unsatisfiable"], PHP, "unsatisfiable"),
    Use("man/lrat-check.1", ["cadical --lrat --no-binary formula.cnf proof.lrat", "lrat-check formula.cnf proof.lrat"],
        E, YES, solver=True),
    Use("man/lrat-check.1", ["drat-trim formula.cnf proof.drat -L proof.lrat", "lrat-check formula.cnf proof.lrat"], E, YES),
    Use("man/lrat-check.1", ["zcat proof.lrat.gz | lrat-check formula.cnf"], E, YES),
    Use("man/model-check.1", ["cadical -q formula.cnf | model-check formula.cnf"], QUEENS, MODEL, solver=True),
    Use("man/model-check.1", ["minisat formula.cnf result", MINISAT], QUEENS, MODEL, solver=True),
    Use("examples/pigeonhole.py", ["python3 pigeonhole.py HOLES FORMULA PROOF", "+lrat-check FORMULA PROOF"], E, YES),
    Use("examples/pigeonhole_pr.py", ["python3 pigeonhole_pr.py HOLES FORMULA PROOF", "+drat-forward --pr FORMULA PROOF"],
        E, YES),
    Use("examples/queens.py", ["queens.py N FORMULA", "+cmp FORMULA examples/queens-6.cnf"], E),
    Use("examples/make-cadical-model.sh", ["make-cadical-model.sh N FORMULA OUTPUT", "+model-check FORMULA OUTPUT"], E, MODEL),
    Use("examples/make-cadical-proof.sh", ["make-cadical-proof.sh HOLES FORMULA PROOF", "+drat-forward FORMULA PROOF"], E, YES),
    Use("examples/worked.py", ["worked.py [NAME]"], E, "2 passed, 0 failed"),
    *(Use("examples/plot.py", [f"{run} FORMULA PROOF PICTURE"], of) for run, of in (
        ("drat-forward --trace FORMULA PROOF | plot.py", "e.drat"),
        ("lrat-check --trace FORMULA PROOF | plot.py --lrat", "e.lrat"),
        ("drat-forward --binary --trace FORMULA PROOF | plot.py --binary", "e.bin"),
        ("drat-forward --pr --trace FORMULA PROOF | plot.py --pr", "pigeonhole-5-pr.drat"))),
]

# what stands for the names in the heads of examples
NAMES = {"HOLES": "5", "N": "6", "FORMULA": "f.cnf", "PROOF": "p", "OUTPUT": "o", "PICTURE": "p.png", "[NAME]": "e_lrat"}

# a command, the file that runs it or something that can't be run without it, and what stands there
ELSEWHERE = {
    "tar -xf gazhumbe-0.2.0-linux-x86_64.tar.gz": ("packaging/test-dist.sh", "README.md"),
    "cd gazhumbe-0.2.0-linux-x86_64": ("packaging/test-dist.sh", "README.md"),
    "sha256sum --quiet -c SHA256SUMS": ("packaging/test-dist.sh", "README.md"),
    'export PATH="$PWD/bin:$PATH"': ("packaging/test-dist.sh", "README.md"),
    "sudo make install": ("packaging/test-dist.sh", "make install"),
    "sudo apt install ./gazhumbe_0.2.0_amd64.deb": ("packaging/test-deb.sh", "install"),
    "make          # proves everything, and builds the three programs in bin/": ("tests/run.sh", "tests/prove.py"),
    'make test     # all tests; the last line is "N passed, M failed"': (".ci/run", "make test"),
    "make dist     # the release; packaging/build-deb.sh makes the package": ("packaging/test-dist.sh", "build-dist.sh"),
    "make test-solvers": ("Makefile", "test-solvers:"),
    "rt version": ("tests/run.sh", "${RT:-rt}"),
    "timeout N": ("tests/pages.py", "a command with a limit of time"),
    "ulimit -v": ("tests/programs/rows.sh", "ulimit"),
    "examples/check-all -j8 FOLDER": ("tests/check_all.py", "-j"),
    "make-glucose-proof.sh FORMULA PROOF": ("tests/solvers.sh", "make-glucose-proof.sh"),
    "apt-get install berkeley-abc gdb": ("tests/solvers.sh", "berkeley-abc gdb"),
}

SOLVER = """#!/bin/bash
# a solver that knows three formulas
names=() form=bin
for word; do
    case $word in
        --no-binary) [ "$form" = lrat ] || form=drat ;;
        --lrat) form=lrat ;;
        -?*) ;;
        *) names+=("$word") ;;
    esac
done
x=EXAMPLES known=
for name in pigeonhole-5 queens-6 e; do
    cmp -s "${names[0]}" "$x/$name.cnf" && known=$name
done
proof=${names[1]:-/dev/null} answer=20
[ "$proof" != - ] || proof=/dev/stdout
[ "$known" != queens-6 ] || answer=10
case MOOD in
    crashes) [ "$answer" = 10 ] || head -c 9 "$x/$known.$form" > "$proof"; kill -SEGV $$ ;;
    zero) exit 0 ;;
    unknown) echo 's UNKNOWN'; exit 0 ;;
    lies) answer=$((30 - answer)) ;;
esac
case $answer,MINISAT in
    10,yes)
        printf 'SAT\\n1 2 0\\n' > "$proof"
        [ "$known" != queens-6 ] || sed -n '1s/.*/SAT/p; s/^v //p' "$x/queens-6.out" > "$proof" ;;
    20,yes) echo UNSAT > "$proof" ;;
    10,*) if [ "$known" = queens-6 ]; then cat "$x/queens-6.out"; else printf 's SATISFIABLE\\nv 1 2 0\\n'; fi ;;
    20,*) [ "$known" != queens-6 ] || known=e; cat "$x/$known.$form" > "$proof"; echo 's UNSATISFIABLE' ;;
esac
exit $answer
"""
DRAT_TRIM = """#!/bin/bash
while [ $# -gt 0 ]; do
    if [ "$1" = -L ]; then cp EXAMPLES/e.lrat "$2"; fi
    shift
done
echo 's VERIFIED'
"""
GNUPLOT = "#!/bin/sh\nexec cat > /dev/null\n"
PV = '#!/bin/sh\nexec cat "$@"\n'
# those that may not be installed, among the words that begin a command in a sentence
COMMANDS = "cadical kissat cryptominisat5 picosat.trace java minisat z3 drat-trim rt ulimit sudo pv".split()
SYSTEM = "bash cat cmp cp dirname env false grep gzip head mktemp mv python3 rm sed sh sleep tail timeout tr zcat".split()
BAD = ("crashes", "missing", "zero", "unknown", "lies")

# ---- What pages show


def is_whole(command):
    read = subprocess.run(["bash", "-n", "-c", command], capture_output=True, check=False)
    return read.returncode == 0 and not command.endswith("|")


def of_block(page, lines):
    """The commands of a block of code: those after a `$` with what they write, a whole script, or one a line."""
    if not any(line.startswith("$ ") for line in lines):
        is_script = any(line.startswith(("case ", "if ")) for line in lines)
        for command in ["\n".join(lines)] if is_script else lines:
            yield Shown(page, command, [])
        return
    command, output = "", []
    for line in lines:
        if line.startswith("$ "):
            if command:
                yield Shown(page, command, output)
            command, output = line[2:], []
        elif not is_whole(command):
            command += "\n" + line
        else:
            output.append(line)
    yield Shown(page, command, output)


def is_command(span):
    """Whether a piece of code in a sentence is a command: two words, of which the first can be run."""
    first = span.split()[0] if len(span.split()) > 1 else ""
    return bool(first in (*TOOLS, *COMMANDS) or first.startswith(("bin/", "examples/")) or first and shutil.which(first))


def of_markdown(page, text):
    for block in re.findall(r"(?:^    .*\n)+", text, re.M):
        yield from of_block(page, [line[4:] for line in block.splitlines()])
    for span in re.findall(r"`([^`\n]+)`", re.sub(r"^    .*\n", "", text, flags=re.M)):
        if is_command(span):
            yield Shown(page, span, [])


def of_manual(page, text):
    for block in re.findall(r"^\.Bd -literal.*\n((?:.*\n)*?)\.Ed", text, re.M):
        yield from of_block(page, block.splitlines())


def of_head(page, text):
    """The indented lines of the head of a script, and what Debian needs, without what is said behind them."""
    head = text.split('"""')[1] if page.endswith(".py") else re.match(r"(#.*\n)+", text)[0].replace("# ", "").replace("#", "")
    for line in re.findall(r"^(?:    |Debian: )(\S.*)", head, re.M):
        yield Shown(page, line.split("   ")[0], [])


def shown():
    """Every command that a page shows; those of examples/check-all are run by tests/check_all.py."""
    for path in ["README.md", *sorted(glob.glob("man/*.1", root_dir=TOP)), *sorted(glob.glob("examples/*", root_dir=TOP))]:
        name = os.path.basename(path)
        reader = of_markdown if path == "README.md" else of_manual if path.startswith("man/") else of_head
        if (reader is of_head and not name.endswith((".py", ".sh"))) or name.startswith("check-"):
            continue
        with open(f"{TOP}/{path}", encoding="utf-8") as text:
            yield from reader(path, text.read())


# ---- Runs


def write(path, content):
    with open(path, "wb") as file:
        file.write(content.encode() if isinstance(content, str) else content)


def script(path, content):
    write(path, content.replace("EXAMPLES", f"{TOP}/examples"))
    os.chmod(path, 0o755)


def stand_ins(folder, mood):
    """The scripts that stand for solvers and other programs."""
    os.makedirs(folder)
    if mood != "missing":
        for name, is_minisat in ("cadical", "no"), ("kissat", "no"), ("minisat", "yes"):
            script(f"{folder}/{name}", SOLVER.replace("MOOD", mood).replace("MINISAT", is_minisat))
    for name, content in ("drat-trim", DRAT_TRIM), ("gnuplot", GNUPLOT), ("pv", PV):
        script(f"{folder}/{name}", content)


def inputs(folder, formula, without):
    """The formula, and what belongs to it, by the names that pages use; some are left out, since a solver has to write them."""
    known = {"cnf": "formula.cnf", "drat": "proof.drat", "bin": "proof.bin", "lrat": "proof.lrat", "out": "output"}
    for end, name in known.items():
        path = f"{TOP}/examples/{formula}.{end}"
        if os.path.exists(path) and name not in without:
            with open(path, "rb") as file:
                content = file.read()
            write(f"{folder}/{name}", content)
            write(f"{folder}/{name}.gz", gzip.compress(content))


def prepared(room, use, mood):
    """A folder with the formula and the files that commands of a page read, and a PATH with the stand-ins."""
    folder = tempfile.mkdtemp(dir=room)
    stand_ins(f"{folder}/solvers", mood)
    os.symlink(f"{TOP}/examples", f"{folder}/examples")
    os.symlink(f"{TOP}/examples/pigeonhole.py", f"{folder}/pigeonhole.py")
    os.symlink(f"{TOP}/examples/pigeonhole_pr.py", f"{folder}/pigeonhole_pr.py")
    stem, kind = os.path.splitext(use.formula)
    left_out = ("proof.bin", "proof.drat", "proof.lrat", "output") if use.solver else ()
    inputs(folder, stem.removesuffix("-pr"), left_out)
    if kind:
        shutil.copy(f"{folder}/formula.cnf", f"{folder}/f.cnf")
        shutil.copy(f"{TOP}/examples/{use.formula}", f"{folder}/p")
    path = f"{folder}/solvers:{room}/bin:{TOP}/examples:{room}/system"
    # no program but those of the PATH
    named = {"DRAT_FORWARD", "LRAT_CHECK", "MODEL_CHECK", "CADICAL"}
    return folder, {**{name: value for name, value in os.environ.items() if name not in named}, "PATH": path}


def system(room):
    """A folder with the system's commands, and no solver that happens to be installed."""
    os.mkdir(f"{room}/system")
    for name in SYSTEM:
        found = shutil.which(name)
        if found:
            script(f"{room}/system/{name}", f'#!/bin/sh\nexec {found} "$@"\n')


def run(commands, folder, environment):
    """What commands write, one after the other, and the last status; an earlier one that fails is passed over as a user may."""
    status, lines = 0, []
    for command in commands:
        words = " ".join(NAMES.get(word, word) for word in command.split(" "))
        ended = subprocess.run(["bash", "-c", words], cwd=folder, env=environment, stdin=subprocess.DEVNULL,
                               capture_output=True, check=False)
        status, lines = ended.returncode, ended.stdout.decode("utf-8", "replace").splitlines()
    return status, lines


def commands_of(use, pages):
    """The commands as the page has them: a script by its first line, and what a test adds by a `+`."""
    found = []
    for command in use.commands:
        if command.startswith("+"):
            found.append(command[1:])
        else:
            of_page = [one.command for one in pages if one.page == use.page]
            found += [whole for whole in of_page if command in (whole, whole.split("\n")[0])][:1]
    return found if len(found) == len(use.commands) else None


def of_use(room, use, pages):
    """What a use of commands gives: right, and with each bad solver."""
    commands = commands_of(use, pages)
    name = f"{use.page}: {use.commands[0]} ({use.formula})"
    if commands is None:
        yield name, "the page doesn't have it"
        return
    status, lines = run(commands, *prepared(room, use, "right"))
    last = (lines or [""])[-1]
    wrong = status != use.status or (use.last and last != use.last)
    yield name, f"status {status}, and the last line is {last!r}" if wrong else ""
    outputs = [one.output for one in pages if one.page == use.page and one.command == commands[-1] and one.output]
    if outputs:
        yield f"{name}: what it writes", "" if lines in outputs else f"it writes {lines}"
    for mood in BAD if use.solver else ():
        status, lines = run(commands, *prepared(room, use, mood))
        says = [line for line in lines if line in (YES, MODEL, "SATISFIABLE", "UNSATISFIABLE")]
        yield f"{name}: a solver that {mood}", f"status {status}, says {says}" if status == 0 or says else ""


def limits(room):
    """`timeout N` gives the status 124 where a command with a limit of time takes longer."""
    use = Use("README.md", [], PHP)
    status, _ = run(["sleep 3 | timeout 1 drat-forward formula.cnf"], *prepared(room, use, "right"))
    yield "timeout N", "" if status == 124 else f"status {status}, and not 124"


def run_by_solvers():
    """The script that runs lines of README with real solvers, as its shell reads them."""
    with open(f"{TOP}/tests/solvers.sh", encoding="utf-8") as text:
        return text.read().replace("\\$", "$")


def coverage(pages):
    """Whether each command of a page is run, and whether each file that runs some is there and does."""
    used = {(use.page, command) for use in USES for command in use.commands}
    solvers = run_by_solvers()
    for one in pages:
        first = one.command.split("\n")[0]
        there = (one.page, one.command) in used or (one.page, first) in used or one.command in ELSEWHERE
        by_solvers = one.page == "README.md" and any(quote + one.command + quote in solvers for quote in "\"'")
        yield f"{one.page}: {one.command}", "" if there or by_solvers else "no test runs it"
    commands = {one.command for one in pages}
    for command, (path, needle) in ELSEWHERE.items():
        if command not in commands:
            yield command, "no page has it"
        elif not os.path.exists(f"{TOP}/{path}"):
            yield command, f"there is no {path}"
        else:
            with open(f"{TOP}/{path}", encoding="utf-8") as text:
                yield command, "" if needle in text.read() else f"{path} doesn't have {needle!r}"


def main():
    passed = failed = 0
    pages = list(shown())
    with tempfile.TemporaryDirectory() as room:
        os.mkdir(f"{room}/bin")
        system(room)
        for tool in TOOLS:
            path = os.environ.get(tool.upper().replace("-", "_"), f"{TOP}/bin/{tool}")
            if not os.access(path, os.X_OK):
                print(f"FAILED: there is no program {path}\n0 passed, 1 failed")
                return 1
            os.symlink(os.path.abspath(path), f"{room}/bin/{tool}")
        tests = [*(of_use(room, use, pages) for use in USES), limits(room), coverage(pages)]
        for name, fault in (row for test in tests for row in test):
            passed, failed = passed + (not fault), failed + bool(fault)
            if fault:
                print(f"FAILED: {name}: {fault}")
    print(f"{passed} passed, {failed} failed")
    return 0 if passed and not failed else 1


if __name__ == "__main__":
    sys.exit(main())
