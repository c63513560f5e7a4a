"""The tables of docs/SPEED.md and bench/TIMES.md, and the ratios as bars, docs/speed.svg: from what the scripts beside it wrote
(bench/*/figures.txt) and what bench/sizes.py computes. `tests/documents.sh --write` puts them there.
"""

import math
import re
from pathlib import Path

import sizes

HERE = Path(__file__).resolve().parent


def figures(*names):
    """The fields of the figures of some scripts, each after its script's name. SCRIPT/FILE is another file than figures.txt."""
    for name in names:
        script, _, file = name.partition("/")
        lines = (HERE / script / f"{file or 'figures'}.txt").read_text().splitlines()
        yield from ([script, *line.split("|")] for line in lines if not line.startswith("#"))


def table(head, rows):
    first, *others = (f"| {' | '.join(cells)} |" for cells in (head, *rows))
    return [first, "|---" * len(head) + "|", *others]


def grouped(text):
    """The text with a comma before each third digit, but for days."""
    while (found := re.sub(r"([0-9])([0-9]{3})($|[^0-9-])", r"\1,\2\3", text, count=1)) != text:
        text = found
    return text


def spaced(text):
    return text if "Ed25519" in text else grouped(text)


def a_second(of, seconds):
    """How many a second that makes, by the number with which the text begins."""
    digits = re.sub("[^0-9 ]", "", of).split()
    many, seconds = int(digits[0]) if digits else 1, float(seconds or 0)
    rate = many / seconds if seconds > 0 else 0
    return f"{rate:.2f}" if 0 < rate < 10 else grouped(f"{rate:.0f}") if rate else ""


def openings():
    """What opening a log of 1,048,576 entries takes against hashing its journal once, in the form of the figures of ratios."""
    rows = [*figures("log")]
    hashed = {of: float(seconds) for _, work, of, seconds, *_ in rows if work.startswith("reading and hashing") and seconds[0].isdigit()}
    for script, work, of, seconds, _, day in rows:
        if re.fullmatch("opening a log( with tiles)?, processor time", work) and of.startswith("1048576 "):
            what = f"{work.removesuffix(', processor time')}, 1,048,576 entries"
            yield [script, what, "reading and hashing its journal once, by openssl", f"{float(seconds) / hashed[of]:.2f}", day]


def ratios():
    """(script, work, against, least, most, as it is shown, day) for each ratio."""
    for script, work, against, found, day in (*figures("hashes", "signatures", "judging", "proofs"), *openings(),
                                              *figures("audit/ratios", "quarrel")):
        ends = [find(found.split(), key=float) for find in (min, max)]
        shown = [one if float(one) < 1000 else f"{int(float(one) / 1000 + 0.5)},000" for one in ends]
        yield script, work, against, *map(float, ends), " to ".join(dict.fromkeys(shown)), day


def ratio_table():
    rows = [(work, against, shown, f"`bench/{script}.sh`", day) for script, work, against, _, _, shown, day in ratios()]
    return table(("Work", "Against", "Ratio", "Script", "Day"), rows)


def time_table():
    found = figures("log", "largest", "cosigners", "mirrors", "trust", "audit", "monitor", "extensions")
    rows = [(work, of, seconds, memory, f"`bench/{script}.sh`", day) for script, work, of, seconds, memory, day in found]
    return [*map(grouped, table(("Work", "Of", "Seconds", "Memory", "Script", "Day"), rows))]


def ways():
    """From requests to verified certificates: the lines of one way stand one below the other, and the last one is all of it."""
    parts, syncs, calls, verified = [], 0, 0, ""
    for _, work, of, seconds, clock, sync, day in figures("issuing"):
        if not re.search(" certificates?, at ", of):
            continue
        if work == "`verify`":
            verified = seconds
        elif not work.startswith("from "):
            parts.append(seconds)
            took = sync.split()
            syncs, calls = syncs + float(took[0] if took else 0), calls + int(took[2] if took else 0)
        else:
            yield spaced(of), *parts[:2], verified, clock, f"{syncs:.3f} in {calls}" if calls else "", a_second(of, clock or seconds), day
            parts, syncs, calls = [], 0, 0


def rate_table():
    alone = [(work, spaced(of), seconds, clock, sync, a_second(of, clock or seconds), day)
             for _, work, of, seconds, clock, sync, day in figures("verifying", "issuing") if not re.search(" certificates?, at ", of)]
    head = ("Certificates, and the log", "Issued, s", "Certified, s", "Verified, s", "All, by the clock, s", "Syncs, s", "A second", "Day")
    head_alone = ("Work alone", "Of", "Processor, s", "By the clock, s", "Syncs, s", "A second", "Day")
    return [*table(head, [*ways()]), "", *table(head_alone, alone)]


def command_table():
    counted = {(work, of): count for _, work, of, count, *_ in figures("commands/instructions")}
    rows = [(work, of, seconds, memory, counted.get((work, of), ""), day) for _, work, of, seconds, memory, day in figures("commands")]
    return table(("Command", "Of", "Seconds", "Memory", "Instructions", "Day"), rows)


def parts():
    """(page, mark, what stands there) for each table."""
    return [("SPEED.md", "sizes", [*sizes.rows()]), ("SPEED.md", "rates", rate_table()), ("SPEED.md", "commands", command_table()),
            ("SPEED.md", "ratios", ratio_table()), ("../bench/TIMES.md", "times", time_table())]


# ---- the picture: bars on a scale where each line is twice the one before

LEFT, OCTAVE, HIGH, TOP = 680, 90, 26, 40


def x_of(ratio):
    return min(max(LEFT + (math.log2(ratio) + 2) * OCTAVE, LEFT), LEFT + 4 * OCTAVE)


def text(x, y, anchor, words):
    return f'<text x="{x:.0f}" y="{y:.0f}" text-anchor="{anchor}">{words.replace("`", "")}</text>'


def bar(row, work, against, low, high, shown):
    y, begin, end = TOP + row * HIGH + 4, x_of(low), x_of(high)
    if end - begin < 4:
        begin, end = begin - 2, begin + 2
    color = "#c53030" if high > 4 else "#dd8a2f" if low > 1.1 else "#2b6cb0"
    yield text(LEFT - 10, y + 13, "end", f"{work}, against {against}")
    yield f'<rect x="{begin:.0f}" y="{y:.0f}" width="{end - begin:.0f}" height="16" fill="{color}"/>'
    yield text(end + 6, y + 13, "start", shown)


def picture():
    found = [*ratios()]
    bottom = TOP + len(found) * HIGH
    lines = [f'<svg xmlns="http://www.w3.org/2000/svg" viewBox="0 0 1150 {bottom + 20}" font-family="sans-serif" font-size="13">',
             '<rect width="100%" height="100%" fill="white"/>']
    for at in range(-2, 3):
        lines.append(f'<path d="M{x_of(2 ** at):.0f} {TOP} V{bottom}" stroke="{"#ddd" if at else "#000"}"/>')
        lines.append(text(x_of(2 ** at), TOP - 10, "middle", f"1/{2 ** -at}" if at < 0 else str(2 ** at)))
    for row, (_, work, against, low, high, shown, _) in enumerate(found):
        lines += bar(row, work, against, low, high, shown)
    return "\n".join([*lines, "</svg>", ""])
