"""The records of wrong bodies, crates/NAME/wrong_bodies/rejected: a line `NAME SUM` for each edit that was rejected, in
order of names, where the sum is of all that its verdict depends on.

That is the edit, the judge (verdicts.py), the toolchain's logic, the crate's sources, specs and proofs but for comments
and empty lines, the lines of crates.txt, and of each crate below what a proof above may see of it. The toolchain leaves
out the rest itself: a caller knows a function by its clauses alone, and a built library has for its callers each body
as a mere return (`interface`), and of the folder of a function's proofs nothing but what it states (`facade`). In doubt
a text counts: then an edit is tried once more, and none is taken for rejected that wasn't tried.
"""
import functools
import hashlib
import itertools
import os
import re

from shared import ROOT, below, bytes_of, said_by, write_text
from sources import functions_of, paths
from verdicts import PROOF_OF, Edit, check_of, crates, files_of, known_as

RECORD, LINE = "crates/{}/wrong_bodies/rejected", re.compile(r"(\S+) ([0-9a-f]{32})")
# A comment, a blank, a text, a character or a byte, a word, or any other sign. In clauses names may end in `'`.
TOKEN = re.compile(r"""(//[^\n]*|\s+|[bc]?r(#*)".*?"\2|[bc]?"(?:[^"\\]|\\.)*"|b?'(?:[^'\\\n]|\\(?:u\{\w*\}|x\w\w|.))'"""
                   r"""|\w+'*|.)""", re.S)
OPENING, CLOSING = {*"([{"}, {*")]}"}
# What stands before the braces of a clause, and not before a body.
CLAUSE = re.compile(r"(^| )((requires|ensures)( \*)?( \w+)?|ghost \w+ :)$")
# A body with one of these may hold what is seen outside of it.
ITEMS = {"impl", "macro_rules"}
ANTT_NOTE = re.compile(r"^[ \t]*--(?: [^\n]*)?\n", re.M)


def is_blank(token):
    return token.isspace() or is_note(token)


def is_note(token):
    return token.startswith("//")


def tokens_of(text):
    return [it[0] for it in TOKEN.findall(text)]


def without_notes(text):
    """A source without its comments and empty lines. One with a comment of the other kind counts whole."""
    made = []
    for are_blank, part in itertools.groupby([] if "/*" in text else tokens_of(text), is_blank):
        part = "".join(it for it in part if not (are_blank and is_note(it)))
        _, end, indent = part.rpartition("\n")
        made.append(end + indent if are_blank else part)
    return "".join(made).strip() or text


def behind(tokens, at):
    """The place behind the bracket that closes the one that opens here."""
    depth = 0
    while True:
        depth += (tokens[at] in OPENING) - (tokens[at] in CLOSING)
        at += 1
        if not depth:
            return at


def next_word(tokens, at):
    """The place of the first token from here on that is no blank."""
    while is_blank(tokens[at]):
        at += 1
    return at


def head_of(tokens, at):
    """A head from here on, as it is seen, where the body begins that stands behind it, and where that ends: the same
    place, if `;` stands there."""
    head, words, depth = [], [], 0
    while tokens[at] != ";":
        token, end = tokens[at], behind(tokens, at) if tokens[at] in OPENING else at + 1
        if token == "{" and not depth and not CLAUSE.search(" ".join(words[-4:])):
            break
        # Braces between `<` and `>` are an argument.
        depth += (token == "<") - (token == ">" and tokens[at - 1] not in ("-", "="))
        words += [] if is_blank(token) else [token]
        head.append(" " if is_blank(token) else "".join(tokens[at:end]))
        at = end
    return "".join(head), at, at if tokens[at] == ";" else end


def is_seen(tokens, start, end):
    """Whether more of a function than its head may be seen above: a `const fn`, one whose result the body names, and
    one that holds an item."""
    first = start
    while first and tokens[first - 1] not in ("{", "}", ";", "]"):
        first -= 1
    return "const" in tokens[first:start] or bool(ITEMS & {*tokens[start:end]})


def ghost_end(tokens, at):
    """Where a ghost member, field or import ends."""
    while tokens[at] not in CLOSING | {";", ","}:
        at = behind(tokens, at) if tokens[at] in OPENING else at + 1
    return at


def macro_end(tokens, at):
    """Where a macro or a call of one ends that has its `!` here, or None where it is another `!`."""
    name, head = at - 1, next_word(tokens, at + 1)
    while name and is_blank(tokens[name]):
        name -= 1
    if re.match(r"\w", tokens[head]):
        head = next_word(tokens, head + 1)
    return behind(tokens, head) if re.match(r"\w", tokens[name]) and tokens[head] in OPENING else None


def seen_parts(tokens):
    """The parts of a source that a proof above may see: all but comments, how wide blanks are, and the bodies of
    functions. Clauses and ghost members keep their blanks, macros all that they may write, and a trait the bodies that
    it gives, since an impl above that takes them over calls what they call."""
    at = open_until = 0
    while at < len(tokens):
        start, at, token = at, at + 1, tokens[at]
        if is_blank(token):
            while at < len(tokens) and is_blank(tokens[at]):
                at += 1
            yield " "
        elif token in ("fn", "trait") and re.match(r"\w", tokens[next_word(tokens, at)]):
            head, body, end = head_of(tokens, at)
            open_until = max(open_until, end) if token == "trait" else open_until
            at = body if token == "trait" else end
            yield token + head
            if token == "fn" and (end <= open_until or is_seen(tokens, start, end)):
                yield "".join(tokens[body:end])
        elif token in ("ghost", "!"):
            at = ghost_end(tokens, at) if token == "ghost" else macro_end(tokens, start) or at
            yield "".join(tokens[start:at])
        else:
            yield token


def surface(text):
    """What a proof above may see of a source. One that isn't understood counts whole."""
    try:
        return text if "/*" in text else "".join(seen_parts(tokens_of(text))).strip()
    except IndexError:
        return text


def seen_of(place, text):
    """What a proof above may see of a file of a crate, by its place there. Of the folder of a function's proofs nothing
    is: lemmas that others cite stand beside such folders."""
    if PROOF_OF.fullmatch(place) and "Lemmas/" not in place:
        return None
    return surface(text.decode(errors="surrogateescape")) if place.endswith(".rt") else read_of(place, text)


def read_of(place, text):
    """What a check of the crate itself reads of a file."""
    if place.endswith(".antt") and b"{-" not in text:
        return ANTT_NOTE.sub("", text.decode(errors="surrogateescape"))
    return without_notes(text.decode(errors="surrogateescape")) if place.endswith(".rt") else text


def sum_of(*what):
    return hashlib.sha256(repr(what).encode(errors="surrogateescape")).hexdigest()


@functools.cache
def sum_above(crate):
    """A sum of what a proof above a crate may see of it."""
    seen = ((place, seen_of(place, text)) for place, text in files_of(crate).items())
    return sum_of(crate, crates()[crate], [it for it in seen if it[1] is not None])


@functools.cache
def sum_within(crate):
    """A sum of all that a check of a crate reads, and of its functions, by which goals are told apart."""
    functions = [(it.path, known_as(it)) for it in functions_of(crate)]
    read = [(place, read_of(place, text)) for place, text in files_of(crate).items()]
    return sum_of(check_of("", "", crate), functions, read, [*map(sum_above, below(crate, crates()))])


@functools.cache
def judge():
    """The toolchain's logic, and the text that decides verdicts."""
    told = said_by(["rt", "version"])
    return (re.findall(r"\blogic (\S+)", told) or [told])[0], bytes_of(f"{ROOT}/tools/shared/verdicts.py")


def sum_of_edit(edit):
    """The sum of an edit's line."""
    functions, ways = (sorted(it, key=repr) for it in (edit.functions, edit.paths))
    text = bytes_of(f"{ROOT}/{edit.path}")
    return sum_of(judge(), sum_within(edit.crate), edit.path, text, functions, ways)[:32]


def edits_of(crate, names, is_each):
    """The edits that are to be tried: those that are named, or else all that stand in wrong_bodies, or each of both
    folders."""
    is_whole = not names or crate in names
    return [edit for folder, is_tried in (("wrong_bodies", is_whole), ("must-fail", is_whole and is_each))
            for edit in map(Edit, paths(f"crates/{crate}/{folder}/*.edit")) if is_tried or edit.name in names]


@functools.cache
def record_of(crate):
    """The sums of a crate's record by the names of edits, and what is wrong with it."""
    path, sums, faults = RECORD.format(crate), {}, []
    text = (bytes_of(f"{ROOT}/{path}") or b"").decode(errors="replace")
    edits = {os.path.basename(it).removesuffix(".edit") for it in paths(f"crates/{crate}/wrong_bodies/*.edit")}
    for number, line in enumerate(text.split("\n")[:-1] if text.endswith("\n") else text.split("\n"), 1):
        name, found = [*LINE.fullmatch(line).groups()] if LINE.fullmatch(line) else ("", "")
        why = "it isn't a name and a sum" if not name else "no edit is called so" if name not in edits else ""
        why = why or ("it is out of order, or there twice" if name <= max(sums, default="") else "")
        faults += [f"{path}:{number}: {why} (tools/checks/wrong_bodies --record writes it)"] if why and text else []
        sums |= {name: found} if name and not why else {}
    return sums, faults


def faults_of_records():
    return [line for crate in crates() for line in record_of(crate)[1]]


def is_recorded(edit):
    """Whether the record of its crate has it, as rejected of the very same texts."""
    return record_of(edit.crate)[0].get(edit.name) == sum_of_edit(edit)


def write_record(crate, edits):
    """Has the record of a crate hold these edits."""
    path = RECORD.format(crate)
    text = "".join(f"{it.name} {sum_of_edit(it)}\n" for it in sorted(edits, key=lambda it: it.name))
    if text and text.encode() != bytes_of(f"{ROOT}/{path}"):
        write_text(path, text)
    elif not text and os.path.lexists(f"{ROOT}/{path}"):
        os.remove(f"{ROOT}/{path}")
