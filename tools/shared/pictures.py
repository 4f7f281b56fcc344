"""The pictures of docs/pictures, the manual pages, and the table that README.md and docs/BENCHMARKS.md quote.

Plots and table are of one run of tools/measures/bench --plot, whose rows stand in docs/pictures/rows.txt, a line each:
kind of keys, count, call, store, number. The tree is what `dot` answers in a session of the shell, and the crates are
those of crates.txt. Manual pages are the pages for users. The last line of each has the sum of what it was made of, by
gnuplot, by graphviz and by pandoc."""
import hashlib
import os
import re
import shutil

from programs import PAGES
from sessions import sessions_of
from shared import ROOT, said_by, text_of, uses_of_crates, write_text

FOLDER = "docs/pictures"
ROWS, TABLE = f"{FOLDER}/rows.txt", f"{FOLDER}/table.md"
# The session of trie_shell whose tree is drawn.
TREE = "pictures.txt"
# The calls, by their names in the rows: what a plot says of each, and how the table calls it.
CALLS = {
    "get": ("get: nanoseconds a call", "`get`"),
    "prefix": ("longest stored prefix: nanoseconds a call", "longest stored prefix"),
    "below": ("first ten pairs below a prefix: nanoseconds a call", "first ten pairs below a prefix"),
    "walk": ("walk: nanoseconds a pair", "walk, a pair"),
    "bytes": ("bytes a pair, but for its text", "bytes a pair"),
}
STORES = {"trie": "trie", "frozen": "frozen trie", "map": "B-tree", "hash_map": "hash map", "crate": "Rust crate"}
COLOURS = {"trie": "#0072b2", "frozen": "#009e73", "map": "#e69f00", "hash_map": "#999999", "crate": "#d55e00"}
# What stands in a cell of the table whose store has no such call.
NONE = {("map", "prefix"): "a lookup a length", ("hash_map", "below"): "no such call"}
# What each crate is: what callers name, a program, or tests; all others are inside.
COLOURS_OF_CRATES = {
    "#cfe8ff": "radix_trie frozen_trie frozen_routes frozen_networks flat_routes flat_texts flat_tries prefix_maps "
               "nifazombi_c trie_set topic_filters keyed_maps",
    "#d5f2d5": "trie_tool route_tool", "#eeeeee": "trie_tests trie_examples"}
# What each program is, for the first line of its manual page.
ABOUT = {"trie_tool": "numbers by texts, in a proved radix trie", "route_tool": "a proved routing table",
         "trie_shell": "a shell of proved radix tries"}


def rows():
    """The numbers of the run, by kind, count, call and store."""
    parted = map(str.split, text_of(ROWS).splitlines())
    return {(kind, int(count), call, store): int(number) for kind, count, call, store, number in parted}


def kinds_of(found):
    return list(dict.fromkeys(kind for kind, *_ in found))


def table(found):
    """The least and the most of each call over the kinds of keys, at the largest count."""
    most = max(count for _, count, *_ in found)
    lines = ["| | " + " | ".join(STORES.values()) + " |", "|---" * (len(STORES) + 1) + "|"]
    for call, (_, name) in CALLS.items():
        cells = [name]
        for store in STORES:
            times = [it for it in (found.get((kind, most, call, store)) for kind in kinds_of(found)) if it is not None]
            shown = dict.fromkeys(f"{it:,}" for it in (min(times), max(times))) if times else [NONE[store, call]]
            cells.append(" to ".join(shown))
        lines.append("| " + " | ".join(cells) + " |")
    return "".join(f"{it}\n" for it in lines)


def plot(found, call):
    """What gnuplot is told: a panel for each kind of keys, a line for each store that has the call."""
    yield "set terminal svg size 960,330 font 'sans-serif,12' background 'white'\n"
    yield f"set multiplot layout 1,{len(kinds_of(found))} title '{CALLS[call][0]}, by the count of pairs'\n"
    yield "set logscale xy\nset xrange [1000:1000000]\nset format x '10^{%T}'\nset grid\n"
    yield "set key bottom right samplen 1\n"
    for kind in kinds_of(found):
        lines, points = [], []
        for store, name in STORES.items():
            at = sorted((row[1], number) for row, number in found.items()
                        if (row[0], *row[2:]) == (kind, call, store) and number)
            if at:
                lines.append(f"'-' with linespoints lw 2 pt 7 ps 0.4 lc rgb '{COLOURS[store]}' title '{name}'")
                points.append("".join(f"{count} {number}\n" for count, number in at) + "e\n")
        yield f"set title '{kind}'\nplot {', '.join(lines)}\n{''.join(points)}unset key\n"
    yield "unset multiplot\n"


def crates():
    """What graphviz is told of the crates: an arrow to each that one uses and that none of those uses."""
    uses = uses_of_crates()
    uses = {crate: [it for it in used if it in uses] for crate, used in uses.items()}

    def below(crate):
        return {it for used in uses[crate] for it in (used, *below(used))}

    yield 'digraph crates {\nrankdir=BT\nnode [shape=box style=filled fontname="sans-serif" fillcolor=white]\n'
    for colour, names in COLOURS_OF_CRATES.items():
        yield "".join(f'{it} [fillcolor="{colour}"]\n' for it in names.split())
    for crate, used in uses.items():
        behind = {it for one in used for it in below(one)}
        yield "".join(f"{crate} -> {it}\n" for it in used if it not in behind)
    yield "}\n"


def tree():
    """What `dot` answers in the session."""
    session = next(it for it in sessions_of("trie_shell") if it.name == TREE)
    return next(it.answer for it in session.exchanges if it.line == b"dot\n").decode()


def sources():
    """By its path, the program that makes each, and what that is told."""
    plots = {call: (["gnuplot"], "".join(plot(rows(), call))) for call in CALLS}
    drawn = {**plots, "crates": (["dot", "-Tsvg"], "".join(crates())), "tree": (["dot", "-Tsvg"], tree())}
    yield from ((f"{FOLDER}/{name}.svg", *source) for name, source in drawn.items())
    for name, page in PAGES.items():
        text = re.sub("^# .*", "# DESCRIPTION", text_of(page), flags=re.M)
        words = ["pandoc", "-f", "gfm", "-t", "man", "-s", "-M", f"title={name.upper()}", "-M", "section=1"]
        yield f"docs/man/{name}.1", words, f"# NAME\n\n{name} - {ABOUT[name]}\n\n{text}"


def mark(place, told):
    """The last line, a remark."""
    total = hashlib.sha256(told.encode()).hexdigest()
    return f"<!-- {total} -->\n" if place.endswith(".svg") else f'.\\" {total}\n'


def wrong(is_written):
    """What isn't of its sources as they stand, which is written where it is to be and the program is there."""
    made = table(rows())
    if made != text_of(TABLE) and is_written:
        write_text(TABLE, made)
    elif made != text_of(TABLE):
        yield f"{TABLE}: it isn't of {ROWS}"
    quoting = ("README.md", "docs/BENCHMARKS.md")
    yield from (f"{it}: it doesn't quote {TABLE}" for it in quoting if made not in text_of(it))
    for place, words, told in sources():
        if os.path.isfile(f"{ROOT}/{place}") and text_of(place).endswith(mark(place, told)):
            continue
        if not is_written or not shutil.which(words[0]):
            yield f"{place}: it isn't of its source; tools/checks/texts --write makes it, by {words[0]}"
            continue
        write_text(place, said_by(words, told.encode()) + mark(place, told))
