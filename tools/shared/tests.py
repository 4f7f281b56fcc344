"""The tests of the crates, proved ones and those in plain Rust, and the page of what tests each call, docs/TESTS.md."""
import collections
import dataclasses
import functools
import os
import re

import api
from sessions import route_calls, sessions_of, shell_calls
from shared import text_of
from sources import paths

PAGE = "docs/TESTS.md"
PLACES = ("crates/*/src/**/*.rt", "rust/*/tests/**/*.rs")
# Those that test calls of the libraries.
OF_CALLS = re.compile(r"crates/|rust/(nifazombi|tests)/")
# What has the calls of a trait in the sessions.
HAVE = {it: ("Trie", "SubTrie", "SubTrieMut") for it in ("TrieCommon", "TrieEdit")}
# What a file has that has values of a type without naming it.
SHOWS = {"Trie": "samples", "SubTrie": "subtrie", "SubTrieMut": "open_mut"}
# How many tests are named that only come to a call.
NAMED = 3
HEAD = """# What tests each call

Made by `tools/checks/texts --write`, as `API.md` is. Of each public call: in how many lines the stored sessions of
`trie_shell` and `route_tool` make it, each of which is run again with memory refused; then the tests that are called by
it, and of those that come to it the first ones. A law does nothing, so it has no test. A test comes to a call if it has
its name, in a file that names its type or its crate: of calls with one name that is more than there is.
"""
FUNCTION = re.compile(r"^( *)(?:pub(?:\(\w+\))? )?(?:const )?fn (\w+)", re.M)


@dataclasses.dataclass(frozen=True)
class Test:
    """A test: its source, its name, that source's text, and what it says itself and by the functions that it comes to:
    those of its file, of the module that the tests beside it share, and of the examples."""

    path: str
    name: str
    text: str
    said: str


def functions_in(text):
    """The functions of a source that is laid out, by name: from the head to the brace as far left as that."""
    for found in FUNCTION.finditer(text):
        line = text[found.start() : (text + "\n").index("\n", found.start())]
        end = re.compile(rf"^{found[1]}\}}$", re.M).search(text, found.end())
        is_short = line.endswith(("}", ";")) or not end
        yield found[2], found.start(), line if is_short else text[found.start() : end.end()]


@functools.cache
def examples():
    """The functions of the examples, by their modules."""
    return {os.path.basename(path).removesuffix(".rt"): {name: body for name, _, body in functions_in(text_of(path))}
            for path in paths("crates/trie_examples/src/**/*.rt")}


def reached(name, says):
    """A function's text, and those of the functions beside it that it comes to."""
    found = [name]
    for it in found:
        found += {*re.findall(r"\w+", says[it])} & {*says} - {*found}
    return "".join(says[it] for it in found)


@functools.cache
def tests():
    found = []
    for path in (it for it in paths(*PLACES) if "#[test]" in text_of(it)):
        text, says = text_of(path), {}
        for shared in [*paths(f"{os.path.dirname(path)}/common/*.rs"), path]:
            says |= {name: body for name, _, body in functions_in(text_of(shared))}
        for name, place, _ in functions_in(text):
            if re.search(r"#\[test\]\n(?: *#\[.*\n)*\Z", text[:place]):
                said = reached(name, says)
                for module, it in {*re.findall(r"\b(\w+)::(\w+)\(", said)}:
                    said += reached(it, examples()[module]) if it in examples().get(module, ()) else ""
                found.append(Test(path, name, text, said))
    return found


@functools.cache
def words_of(text):
    return {*re.findall(r"\w+", text)}


def calls_in(said):
    """What is called behind a value, by a name alone, and by those of a type or a module."""
    rest = r"(?:::<[^()]*?>)?\("
    named = {f"{kind}::{name}" for kind, name in re.findall(rf"\b(\w+)(?:::<[^()]*?>)?::(\w+){rest}", said)}
    return {*re.findall(rf"\.(\w+){rest}", said)}, {*re.findall(rf"(?<![.:\w])(\w+){rest}", said)}, named


@functools.cache
def known_tests():
    """The tests of calls, each with its words and what it calls."""
    return [(it, words_of(it.text), *calls_in(it.said)) for it in tests() if OF_CALLS.match(it.path)]


@functools.cache
def lines():
    """In how many lines of the sessions each call is made, where a session's equal lines are one."""
    calls_of = (("trie_shell", shell_calls), ("route_tool", route_calls))
    made = {(session.name, it.line, name.lstrip("&")) for program, calls in calls_of
            for session in sessions_of(program) for it, names in calls(session) for name in names}
    return collections.Counter(name for *_, name in made)


def lines_with(crate, owner, name):
    if owner == api.FUNCTIONS:
        return sum(lines()[f"{it}{name}"] for it in ("", "Trie::", "FrozenTrie::"))
    return sum(lines()[f"{it}::{name}"] for it in HAVE.get(owner, (owner,)))


def tests_of(crate, owner, names):
    """By each call of a type, the tests whose names begin with it, and the others that come to it."""
    found = {name: ([], []) for name in names}
    is_free, is_module = owner == api.FUNCTIONS, owner in ("ipv4", "ipv6")
    for it, words, behind, alone, named in known_tests():
        if {crate if is_free or is_module else owner, SHOWS.get(owner)} & words:
            begins = [name for name in names if f"{it.name}_".startswith(f"{name}_")]
            for name in names:
                called = set() if is_module else alone if is_free else behind
                if name in called or f"{crate if is_free else owner}::{name}" in named:
                    found[name][name != max(begins, key=len, default="")].append(it.name)
    return found


def rows(crate):
    """For each type of a crate a row for each call: its name, its lines, its own tests, and the others."""
    for owner, calls in sorted(api.calls_of(crate).items(), key=lambda it: api.rank(it[0])):
        names = [*dict.fromkeys(it.name for it in calls if "laws" not in it.path)]
        found = tests_of(crate, owner, names)
        yield owner, [(name, lines_with(crate, owner, name), *found[name]) for name in names]


def page():
    """The whole page."""
    parts, without = [], []
    for crate in api.CRATES:
        parts.append(f"\n## {crate}\n")
        for owner, calls in rows(crate):
            parts.append(f"\n{owner}:\n\n" * bool(calls))
            for name, count, own, others in calls:
                told = [f"`{it}`" for it in dict.fromkeys([*own, *others[:NAMED]])]
                more = [f"{len(others) - NAMED} more"] * (len(others) > NAMED)
                shown = [f"{count} line{'s' * (count != 1)}"] * bool(count) + [", ".join(told + more)] * bool(told)
                parts.append(f"- `{name}`: {'; '.join(shown) or 'none'}\n")
                without += [] if shown else [f"`{crate}` {owner}: `{name}`"]
    parts.append("\n## Without a test\n\n" + "".join(f"- {it}\n" for it in without) * bool(without))
    return HEAD + "".join(parts)
