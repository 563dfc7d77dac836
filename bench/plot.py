#!/usr/bin/env python3
"""Draws what was measured as docs/append.svg, docs/proof.svg, docs/follow.svg and docs/ratio.svg.

    python3 bench/plot.py [--to FOLDER]
    python3 bench/plot.py --measure [--plain COMMAND] [--largest N] [--times N] [--figures FILE] [--to FOLDER]

The first draws the figures of bench/figures.json. The second measures them before, by crates/bench_log/out/bench_log
and crates/ledger_main/out/ledger_main, which `rt ci` leaves there: logs and jobs of N, a half of it, and so on, four
times halved. All times are processor time, user and system, the least of so many runs. COMMAND is a plain program
that reads a job and prints its report: it runs the same jobs in turn with ours, and has to print the same, apart from
the log's size and root (bench/local.py). Without it there are no plain times and no ratios.
"""
import argparse
import datetime
import hashlib
import json
import os
import pathlib
import platform
import shlex
import subprocess
import tempfile
import time

import follow
import local

TOP = pathlib.Path(__file__).resolve().parent.parent
LOG = TOP / "crates/bench_log/out/bench_log"
FIGURES = TOP / "bench/figures.json"
SPAN = 100

# ---- measuring


def processor_time(command, job=None):
    """Seconds of processor time, and what was printed."""
    with tempfile.TemporaryFile() as printed, open(job or os.devnull, "rb") as source:
        child = subprocess.Popen([str(word) for word in command], stdin=source, stdout=printed)
        _, status, spent = os.wait4(child.pid, 0)
        child.returncode = os.waitstatus_to_exitcode(status)
        assert child.returncode == 0, f"{command[0]} ends with status {child.returncode}"
        printed.seek(0)
        return spent.ru_utime + spent.ru_stime, printed.read()


def least(times, command):
    return min(processor_time(command)[0] for _ in range(times))


def hashing(count):
    """Seconds that Python's hashlib takes for as many leaves and nodes as so many appends make."""
    started = time.process_time()
    for _ in range(2 * count):
        hashlib.sha256(b"\0" * 74).digest()
    return time.process_time() - started


def measure_log(size, times):
    """Nanoseconds an append, microseconds a proof."""
    ranges = min(20_000, size)
    appends = least(times, [LOG, size, 1_000, 0, SPAN])
    proofs = least(times, [LOG, size, 1_000, ranges, SPAN]) - appends
    return {"append": round(appends / size * 1e9), "proof": round(proofs / ranges * 1e6, 1)}


def measure_job(job, plain, times):
    """Seconds of ours, and of the plain program over the same job."""
    with tempfile.NamedTemporaryFile(suffix=".job") as file:
        file.write(job)
        file.flush()
        ours, theirs = [], []
        for _ in range(times):
            spent, printed = processor_time([local.PROGRAM, "local"], file.name)
            ours.append(spent)
            if plain:
                spent, other = processor_time(plain, file.name)
                theirs.append(spent)
                assert local.settled(printed) == local.settled(other), "the two programs print different reports"
        return [round(min(spent), 4) if spent else None for spent in (ours, theirs)]


def machine():
    """The machine's name, as far as it tells it."""
    told = {}
    if os.path.exists("/proc/cpuinfo"):
        lines = (line.partition(":") for line in pathlib.Path("/proc/cpuinfo").read_text().splitlines())
        told = {name.strip(): value.strip() for name, _, value in lines}
    name = told.get("model name") or platform.processor() or platform.machine()
    return f"{name}, {told.get('cpu MHz', '?').split('.')[0]} MHz, {os.cpu_count()} processors, {platform.system()}"


def measure(given):
    plain = shlex.split(given.plain) if given.plain else None
    sizes = [given.largest >> half for half in (4, 3, 2, 1, 0)]
    figures = {"machine": machine(), "day": datetime.date.today().isoformat(), "times": given.times}
    figures["hash"] = round(min(hashing(sizes[2]) for _ in range(given.times)) / sizes[2] * 1e9)
    figures["log"] = {str(size): measure_log(size, given.times) for size in sizes}
    jobs = {
        "following": lambda size: follow.job(size, 100, 16),
        "a body": lambda size: local.body(size // 10, size // 10),
        "rounds": lambda size: local.rounds(size // 10, size // 10),
    }
    for name, job in jobs.items():
        figures[name] = {str(size): measure_job(job(size), plain, given.times) for size in sizes}
    return figures


# ---- drawing

WIDTH, HEIGHT = 720, 380
LEFT, RIGHT, TOP_EDGE, BOTTOM = 64, 150, 48, 68
COLOURS = ["#0b62c4", "#6b7280", "#b3541e"]


def steps(most):
    """Round numbers from 0 up to the first that isn't below `most`, at most six."""
    unit = 10 ** (len(str(int(most * 1000))) - 5)
    step = next(unit * round_one for round_one in (1, 2, 5, 10, 20, 50, 100) if most <= unit * round_one * 5)
    return [step * i for i in range(6) if step * (i - 1) < most]


def written(value):
    return f"{value:,.0f}" if value == int(value) else f"{value:g}"


def words(x, y, text, anchor="middle", size=13, colour="#1f2937"):
    return f'<text x="{x:.1f}" y="{y:.1f}" font-size="{size}" text-anchor="{anchor}" fill="{colour}">{text}</text>'


def line_of(points, colour):
    path = " ".join(f"{x:.1f},{y:.1f}" for x, y in points)
    dots = "".join(f'<circle cx="{x:.1f}" cy="{y:.1f}" r="3.5" fill="{colour}"/>' for x, y in points)
    return f'<polyline points="{path}" fill="none" stroke="{colour}" stroke-width="2"/>{dots}'


def spread(places, gap=17):
    """Places of labels, apart from one another, in the order in which they were given."""
    out, last = {}, None
    for name, place in sorted(places.items(), key=lambda pair: pair[1]):
        last = place if last is None else max(place, last + gap)
        out[name] = last
    return out


def chart(title, across, sizes, lines, note):
    """A chart of some lines over the sizes, each twice the one before; the height begins at 0."""
    marks = steps(max(max(values) for values in lines.values()))
    right, low = WIDTH - RIGHT, HEIGHT - BOTTOM

    def place(at, value):
        return LEFT + 24 + at * (right - LEFT - 48) / (len(sizes) - 1), low - value * (low - TOP_EDGE) / marks[-1]

    out = [f'<svg xmlns="http://www.w3.org/2000/svg" viewBox="0 0 {WIDTH} {HEIGHT}" font-family="sans-serif">']
    out += [f"<title>{title}</title>", f'<rect width="{WIDTH}" height="{HEIGHT}" fill="#ffffff"/>']
    out.append(words(LEFT - 40, 26, title, "start", 16))
    for mark in marks:
        _, y = place(0, mark)
        out.append(f'<line x1="{LEFT}" y1="{y:.1f}" x2="{right}" y2="{y:.1f}" stroke="#e5e7eb"/>')
        out.append(words(LEFT - 8, y + 4, written(mark), "end", 12))
    for at, size in enumerate(sizes):
        out.append(words(place(at, 0)[0], low + 18, f"{size:,}", size=12))
    out.append(words((LEFT + right) / 2, low + 36, across, size=12))
    out.append(words(LEFT - 40, HEIGHT - 10, note, "start", 11, "#6b7280"))
    ends = spread({name: place(0, values[-1])[1] for name, values in lines.items()})
    for (name, values), colour in zip(lines.items(), COLOURS):
        out.append(line_of([place(at, value) for at, value in enumerate(values)], colour))
        out.append(words(right - 12, ends[name] + 4, name, "start", 13, colour))
    return "\n".join([*out, "</svg>", ""])


def draw(figures):
    """The charts by their names."""
    note = f"{figures['machine']}; processor time, the least of {figures['times']} runs; {figures['day']}"
    sizes = [int(size) for size in figures["log"]]
    log = list(figures["log"].values())
    following = list(figures["following"].values())
    charts = {}
    lines = {"this log": [row["append"] for row in log], "hashing alone": [figures["hash"]] * len(log)}
    charts["append"] = chart("An append, in nanoseconds", "operations in the log", sizes, lines, note)
    lines = {"this log": [row["proof"] for row in log]}
    charts["proof"] = chart(f"A proof of {SPAN} operations, made and checked, in microseconds", "operations in the log", sizes, lines, note)
    lines = {"this program": [ours / size * 1e6 for size, (ours, _) in zip(sizes, following)]}
    if following[0][1] is not None:
        lines["plain program"] = [plain / size * 1e6 for size, (_, plain) in zip(sizes, following)]
        ratios = {name: [ours / max(plain, 1e-3) for ours, plain in figures[name].values()] for name in ("following", "a body", "rounds")}
        across = "operations followed; a tenth as many payments"
        charts["ratio"] = chart("Time against that of a plain program that checks as much", across, sizes, ratios, note)
    charts["follow"] = chart("A followed operation, in microseconds", "operations in the log", sizes, lines, note)
    return charts


def main():
    options = argparse.ArgumentParser()
    options.add_argument("--measure", action="store_true")
    options.add_argument("--plain")
    options.add_argument("--largest", type=int, default=1_000_000)
    options.add_argument("--times", type=int, default=5)
    options.add_argument("--figures", type=pathlib.Path, default=FIGURES)
    options.add_argument("--to", type=pathlib.Path, default=TOP / "docs")
    given = options.parse_args()
    if given.measure:
        given.figures.write_text(json.dumps(measure(given), indent=1) + "\n")
    for name, text in draw(json.loads(given.figures.read_text())).items():
        (given.to / f"{name}.svg").write_text(text)
        print(given.to / f"{name}.svg")


if __name__ == "__main__":
    main()
