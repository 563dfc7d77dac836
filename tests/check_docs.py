#!/usr/bin/env python3
"""Whether README.md and docs/ speak of what is there: the clauses of the table of promises, the files and crates that
are named, the first example with what it prints, the statuses of `bin/ledger help`, and commands that are run
somewhere. Ends with a line 'N passed, M failed'.

    python3 tests/check_docs.py
"""
import pathlib
import re
import subprocess
import sys

TOP = pathlib.Path(__file__).resolve().parent.parent
PAGES = [TOP / "README.md", *sorted((TOP / "docs").glob("*.md"))]
# The commands of the pages, with what runs them.
RUN_BY = {
    "bin/ledger local < examples/first.job": "tests/check_commands.py",
    "bin/ledger follow ADDRESS < follow.job": "tests/check_follow.py",
    "bin/ledger serve --source job --connections 2 < examples/served.job": "tests/check_commands.py",
    "bin/ledger sync 127.0.0.1:8080": "tests/check_commands.py",
    "bin/ledger follow 127.0.0.1:8080 < follow.job": "tests/check_commands.py",
    "bin/ledger help": "tests/check_commands.py",
    "bin/ledger build": "tests/check_commands.py",
    "bin/ledger take ../mine ledger_log": "tests/own_repository.py",
    "rt new crates/mine start_io": "tests/own_repository.py",
    "rt try": "tests/own_repository.py",
    "rt ci": ".ci/run",
    "rt version": "tests/check_commands.py",
    "python3 bench/local.py": "tests/check_commands.py",
    "python3 bench/follow.py": "tests/check_commands.py",
    "python3 bench/log.py": "tests/check_commands.py",
    "python3 bench/hostile.py": "tests/check_commands.py",
    "python3 bench/sync.py": "tests/check_commands.py",
    "python3 bench/serve.py": "tests/check_commands.py",
    "python3 bench/plot.py": "tests/check_commands.py",
}
COMMAND = re.compile(r"(?:bin/ledger|rt|python3|git|cp) \S.*")


class Checks:
    def __init__(self):
        self.passed = self.failed = 0

    def hold(self, holds, what):
        self.passed += bool(holds)
        self.failed += not holds
        if not holds:
            print(what)


def fences(text, kind):
    return re.findall(rf"^```{kind}\n(.*?)^```$", text, re.M | re.S)


def inline(text):
    """What stands between single backticks outside of fences."""
    return re.findall(r"`([^`\n]+)`", re.sub(r"^```.*?^```$", "", text, flags=re.M | re.S))


def commands(text):
    found = [line for block in fences(text, "sh") for line in block.splitlines() if line and not line.startswith("#")]
    for block in fences(text, "text"):
        found += [line[2:] for line in block.splitlines() if line.startswith("$ ")]
    return found + [code for code in inline(text) if COMMAND.fullmatch(code)]


def check_commands(checks):
    """Each command is known, and what runs it names it or its program."""
    told = set()
    for page in PAGES:
        for command in commands(page.read_text()):
            if command.startswith("cat "):
                continue
            told.add(command)
            checks.hold(command in RUN_BY, f"{page.name}: nothing runs the command: {command}")
    for command, script in RUN_BY.items():
        checks.hold(command in told, f"no page has the command: {command}")
        words = command.split(" < ")[0].split()[-2:]
        holds = all(word in (TOP / script).read_text() for word in words if word != "python3")
        checks.hold(holds, f"{script} doesn't run: {command}")


def contracts(text):
    """The names of the clauses in each contract of a file, by the function; a clause without a name is `one`."""
    found, name = {}, None
    for line in text.splitlines():
        begun = re.match(r" *(?:pub(?:\(crate\))? )?(?:final )?fn (\w+)", line)
        if begun:
            name = begun.group(1)
            found.setdefault(name, []).append([])
        clause = re.match(r" *ensures (\w+ )?\{", line)
        if clause and name:
            found[name][-1].append((clause.group(1) or "one").strip())
    return found


def check_promises(checks):
    """Each row of the table names a clause that stands in that contract."""
    rows = re.findall(r"^\| [^|]+ \| `(\w+)` \| `?(\w+)`? \| `([\w/.]+)` \|$", (TOP / "README.md").read_text(), re.M)
    checks.hold(len(rows) >= 20, "README.md has no table of promises")
    for call, clause, file in rows:
        path = TOP / "crates" / file
        found = contracts(path.read_text()).get(call, []) if path.exists() else []
        checks.hold(any(clause in clauses for clauses in found), f"README.md: {file} has no clause {clause} of {call}")


def check_paths(checks):
    """Each file that a page names is there."""
    for page in PAGES:
        text = page.read_text()
        named = set(re.findall(r"\bdocs/\w+\.(?:md|svg)", text))
        named |= {code for code in inline(text) if re.fullmatch(r"[\w.]+(?:/[\w.]+)*/[\w]+\.\w+", code)}
        for name in sorted(named):
            holds = (TOP / name).exists() or any((TOP / "crates").glob(name)) or any((TOP / "crates").glob(f"*/{name}"))
            checks.hold(holds, f"{page.name}: there is no {name}")


def check_crates(checks):
    """Each crate of the list is told of, and what docs/PROMISES.md names of one is there."""
    lines = [line for line in (TOP / "crates.txt").read_text().splitlines() if line and not line.startswith("#")]
    crates = [line.split(":")[0].split()[0] for line in lines]
    readme, map_of_crates = (TOP / "README.md").read_text(), (TOP / "docs/ARCHITECTURE.md").read_text()
    for crate in crates:
        checks.hold(f"`{crate}`" in readme, f"README.md doesn't tell of {crate}")
        checks.hold(f"`{crate}`" in map_of_crates, f"docs/ARCHITECTURE.md doesn't tell of {crate}")
    for section in (TOP / "docs/PROMISES.md").read_text().split("\n## ")[1:]:
        crate, _, text = section.partition("\n")
        files = [path for kind in ("*.rt", "*.antt") for path in (TOP / "crates").rglob(kind) if "/out/" not in str(path)]
        own = "".join(path.read_text() for path in files if f"/{crate}/" in str(path))
        for code in inline(text):
            if re.fullmatch(r"specs/\w+", code):
                holds = any(path.match(f"{code}.antt") for path in files)
            elif re.fullmatch(r"[A-Za-z_]+(?:::\w+)?", code):
                holds = re.search(rf"\b{code.split('::')[-1]}\b", own) or code in crates
            else:
                holds = True
            checks.hold(holds, f"docs/PROMISES.md: {crate} has no {code}")


def check_refusals(checks):
    """What docs/REFUSALS.md names in a section stands in one of the crates that its heading names."""
    files = [path for kind in ("*.rt", "*.antt") for path in (TOP / "crates").rglob(kind) if "/out/" not in str(path)]
    for section in (TOP / "docs/REFUSALS.md").read_text().split("\n## ")[1:]:
        heading, _, text = section.partition("\n")
        crates = re.findall(r"[a-z]+_[a-z]+", heading)
        own = "".join(path.read_text() for path in files if any(f"/{crate}/" in str(path) for crate in crates))
        checks.hold(crates, f"docs/REFUSALS.md: no crate in: {heading}")
        for code in inline(text):
            holds = not re.fullmatch(r"[A-Za-z_0-9]+(?:::\w+)?", code) or re.search(rf"\b{code.split('::')[-1]}\b", own)
            checks.hold(holds, f"docs/REFUSALS.md: {heading} has no {code}")


def check_example(checks):
    """The first example stands in README.md as it is, and prints what is printed there."""
    block = next(block for block in fences((TOP / "README.md").read_text(), "text") if block.startswith("$ cat"))
    job, printed = block.split("\n\n")
    for shown, file in ((job, "examples/first.job"), (printed, "examples/first.out")):
        lines = [re.split(r" {2,}|\.\.\.", line)[0] for line in shown.splitlines()[1:]]
        stands = (TOP / file).read_text().splitlines()
        holds = len(lines) == len(stands) and all(real.startswith(line) for line, real in zip(lines, stands))
        checks.hold(holds, f"README.md: {file} has other lines")


def check_node(checks):
    """What the node of the examples prints stands in README.md as it is."""
    printed = (TOP / "crates/example_node/stdout").read_text()
    checks.hold(printed in fences((TOP / "README.md").read_text(), "text"), "README.md: example_node prints other lines")


def check_help(checks):
    """`bin/ledger help` has the statuses of docs/FORMATS.md."""
    told = subprocess.run([TOP / "bin/ledger", "help"], capture_output=True, text=True)
    statuses = re.findall(r"^ +(\d+) ", told.stdout.partition("status")[2], re.M)
    table = (TOP / "docs/FORMATS.md").read_text().partition("## Statuses and error lines")[2]
    checks.hold(told.returncode == 0 and "docs/FORMATS.md" in told.stdout, "bin/ledger help doesn't help")
    checks.hold(statuses == re.findall(r"^\| (\d+) \|", table, re.M), f"bin/ledger help has the statuses {statuses}")


def main():
    checks = Checks()
    parts = (check_commands, check_promises, check_paths, check_crates, check_refusals, check_example, check_node, check_help)
    for check in parts:
        check(checks)
    print(f"{checks.passed} passed, {checks.failed} failed")
    return 1 if checks.failed else 0


if __name__ == "__main__":
    sys.exit(main())
