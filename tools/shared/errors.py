"""The errors that public calls are said to return, and whether a test makes them out of the call."""
import collections
import functools
import re

import api
from sessions import sessions_of, shell_calls
from shared import text_of
from sources import functions_of, paths, types_of
from tests import tests

# Refused memory has rules of its own.
MEMORY = {"Memory", "OutOfMemory"}
ENUM = re.compile(r"^pub enum (\w+(?:Error|Why))\b[^{]*\{\n(.*?)^\}", re.M | re.S)
# What trie_shell answers, where that isn't the error's name in small letters.
SHOWN = {"OutOfOrder": "unsorted"}


@functools.cache
def enums():
    """The variants of each enum of errors, by its crate and its name."""
    found = ((path.split("/")[1], *it) for path in paths("crates/*/src/**/*.rt") for it in ENUM.findall(text_of(path)))
    return {(crate, name): {*re.findall(r"^    ([A-Z]\w*)", rows, re.M)} for crate, name, rows in found}


def named(call, crate, calls):
    """The errors that a call's text names, or those of the calls of its type that it names; or else those of its own
    type."""
    text = api.documentation(call).partition("*Error:* ")[2].partition("\n\n")[0]
    found = {*re.findall(r"`(\w+)`", text)} & set().union(*enums().values())
    those = [it for it in calls if it.name in re.findall(r"Those of\s`(\w+)`", text) and api.owner_of(it) == api.owner_of(call)]
    if found or "Those of" in text:
        return found.union(*(named(it, crate, calls) for it in those)) - MEMORY
    kinds = re.findall(r"\w+(?:Error|Why)\b", call.signature.rpartition("->")[2])
    homes = sorted(enums(), key=lambda it: it[0] != crate)
    return set().union(*(enums()[home] for it in kinds for home in [h for h in homes if h[1] == it][:1])) - MEMORY


@functools.cache
def answers():
    """The first words of the answers of trie_shell, by the call that is made first."""
    found = collections.defaultdict(set)
    for it, names in (it for session in sessions_of("trie_shell") for it in shell_calls(session)):
        found[names[0].lstrip("&") if names else ""].add(it.answer.decode(errors="replace").split("\n")[0].split(" ")[0])
    return found


def is_made(call, crate, error):
    """Whether a test makes an error out of a call, as far as one can tell by the names in it, or a line of
    trie_shell."""
    name = f"{api.module_of(call) or ''}::{call.name}".removeprefix("::")
    owners = [f"{it}::" for it in types_of(call)] if call.owner else [""]
    return any(SHOWN.get(error, error.lower()) in answers()[f"{it}{call.name}"] for it in owners) or any(
        crate in f"{it.path} {it.text}" and error in re.findall(r"\w+", it.said) and re.search(rf"\b{name}\b", it.said)
        for it in tests())


def untried():
    """The errors of public calls that nothing makes, each behind its call and its crate."""
    for crate in api.CRATES:
        calls = [it for it in functions_of(crate) if it.is_public and "Result<" in it.signature]
        for call in calls:
            name = f"{api.owner_of(call)}::{call.name}".removeprefix(f"{api.FUNCTIONS}::")
            yield from (f"{crate} {name}.{it}" for it in sorted(named(call, crate, calls)) if not is_made(call, crate, it))
