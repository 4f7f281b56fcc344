"""How a wrong body is read and judged: which functions it edits, what a check is told, and what refuses it.

Each record of wrong bodies (records.py) is by this text too: a change here has all of them tried again.
"""
import functools
import os
import pathlib
import re

from programs import over_built
from shared import ROOT, files_in, text_of, uses_of_crates
from sources import items_of, sources_of

CRATES, PARTS = f"{ROOT}/crates", ("src", "specs", "proofs")
FAILS = ("STALE", "UNREAD", "PROVED", "NO PROOF", "NO CHECK")
ERROR = re.compile(r"(?:\./)?(\S+?):\d+:\d+: error: (?:`([^`]*)`: )?(.*)")
NO_PROOF = re.compile(r"fn (\S+): no proof: (?:.*did not prove ([^;]*))?(.*)")
UNPROVED = re.compile(r"note: (src/\S+?):(\d+):\d+: it is not proved .*\(`([^`]*)`\)")
PROOF_OF = re.compile(r"(?:crates/\w+/)?proofs/(.+)/(?:Answers|Invariants|Proof)\.antt")
CASCADE = re.compile(r"\d+ declarations? that depends? on|was not admitted")
TYPE = re.compile(r"(&mut |&)?(\[)?(\w+)")
HAS_ENDED = re.compile(r"^(logic|only)=", re.M)
GONE = re.compile(r"has no field|is not in scope|has no `|is no name")
# The crates of crates.txt, each with those that its line names.
crates = functools.cache(uses_of_crates)


class Edit:
    """A wrong body: its path, crate and name, the places of the crate's files that it replaces, and the functions that
    these are of, by their paths and by their names; None where there is no telling."""

    def __init__(self, path):
        self.path, self.crate, self.name = path, path.split("/")[1], os.path.basename(path).removesuffix(".edit")
        self.changes, self.functions, self.paths, self.why = [], set(), set(), ""
        texts = dict.fromkeys(("file", "old"), "")
        only = set()
        for word, text in re.findall("^(file|old|new|only): ?(.*)", text_of(path), re.M):
            if word == "new":
                self.change(texts["file"].strip(), texts["old"], text)
            elif word == "only":
                only.add(text.strip())
            else:
                texts[word] = text
        self.paths = only or self.paths
        if not self.changes and not self.why:
            self.why = "it has no pair of an old and a new text"

    def change(self, path, old, new):
        """Notes where the old text stands in the file as it is without any edit."""
        text = text_of(f"crates/{self.crate}/{path}")
        count = text.count(old) if old else 0
        if count != 1:
            self.why = f"an 'old:' text is in {path} {count} times, and not once"
            return
        start = text.index(old)
        end = start + len(old)
        self.changes.append((path, start, end, new))
        function = path_of(f"crates/{self.crate}/{path}", end)
        self.paths.add(function)
        self.functions.add(function and named(function))

    def fits(self, party):
        """Whether it can be tried with these: no two edit one function."""
        return None not in self.functions and not any(it.functions & {*self.functions, None} for it in party)

    def holds(self, place):
        """Whether an error at this function, as crate::module::Type::name, is one of this edit: any, where it is of no
        function."""
        return None in self.functions or named(place) in self.functions


def path_of(path, place):
    """The path of the function that a proof file is of, or of the one that begins last before this place of a source;
    None where there is no telling."""
    proof, is_source = PROOF_OF.fullmatch(path), "/src/" in path
    if proof:
        owner, name = named(proof[1])
        homes = proof[1].replace(f"+{name}", name).split("/")[:-1]
        return "::".join([*(homes[-1:] if owner else homes), name])
    before = [it for it in items_of(path) if it.kind == "fn" and it.place < place] if is_source else []
    return known_as(before[-1]) if before else None


def known_as(function):
    """The end of the path by which a check knows a function, or None where there is no telling."""
    home = owner_of(function.owner) if function.owner else module_of(function.path)
    return None if home is None else f"{home}::{function.name}".removeprefix("::")


def module_of(path):
    return re.sub(r"(^|/)(lib|main|mod)$", "", path.partition("/src/")[2].removesuffix(".rt")).replace("/", "::")


def named(place):
    """A function's type, with its trait, and its name, by its path. `+` begins the name of one that calls itself."""
    *_, owner, name = ["", *re.split(r"::|/", place)]
    return (owner.split("+")[0] if owner[:1].isupper() else "", name.lstrip("+"))


@functools.cache
def owner_of(block):
    """How a path names an `impl` or a `trait`, as `RefStrTrieKey` for `impl TrieKey for &str`, `Tuple2TrieKey` for one
    of pairs, and `AnyTrieCommon` for one of each type that is an `Locate`, `impl<T: Locate> TrieCommon for T`; None where there
    is no telling. Where an `impl` of no trait leaves out a parameter that has a default the others follow, and all
    where it has no parameter of its own."""
    trait, self_type = (re.sub(r"'\w+ ?", "", it) for it in block.halves)
    if self_type.startswith("("):
        parts = self_type.strip("()").split(", ")
        return f"Tuple{len(parts)}" + "".join(map(whole_name, parts)) + trait.partition("<")[0]
    if not TYPE.match(self_type):
        return None
    name, argument = re.match(r"(?:\w+::)*(\w*)(?:<(.*)>)?", trait).groups()
    every = "Any" if re.fullmatch("[A-Z]", self_type) else ""
    own = whole_name(self_type) if trait else type_name(self_type)
    owner = every + own + (name if name != "Drop" else "") + type_name(argument or "")
    kind, _, given = re.sub(r"'\w+(, )?", "", block.halves[1]).partition("<")
    given = [*filter(None, given.removesuffix(">").split(", "))]
    is_short = not block.text.startswith("<") or len(given) < defaulted(block.path.split("/")[1]).get(kind, 0)
    return owner if trait or not is_short else "+".join([owner, *given])


@functools.cache
def defaulted(crate):
    """How many parameters but lifetimes the types of a crate have, of those where one has a default."""
    found = re.findall(r"struct (\w+)<([^{;(]*=[^{;(]*)>", "".join(map(text_of, sources_of(crate))))
    return {name: len(re.findall(r"(?:^|,)\s*\w", words)) for name, words in found}


def whole_name(text):
    """How a path names a type with its arguments, as `NetworkIpv4Addr` for `Network<Ipv4Addr>`."""
    arguments = text.partition("<")[2].removesuffix(">") if re.match(r"\w+<", text) else ""
    return type_name(text) + "".join(map(type_name, re.split(", *", arguments)))


def type_name(text):
    """How a path names a type, as `RefSliceU8` for `&[u8]`: a parameter isn't named."""
    words = TYPE.match(text)
    if not words:
        return ""
    list_of = "" if not words[2] else "Array" if ";" in text else "Slice"
    kind = {None: "", "&": "Ref", "&mut ": "RefMut"}[words[1]] + list_of
    return kind + ("" if re.fullmatch("[A-Z]", words[3]) else words[3][0].upper() + words[3][1:])


def refusals(crate, output):
    """What a check refuses, each with its kind and its place: goals, of no kind, by function or by file of lemmas,
    names that are gone, texts that can't be read, and functions with no form of proof."""
    for line in output.split("\n"):
        error, left, open_goal = ERROR.match(line), NO_PROOF.match(line), UNPROVED.match(line)
        if left and left[2]:
            yield from (("", left[1], goal) for goal in re.findall(r"`([^`]*)`", left[2]) or [""])
        elif left:
            yield "NO PROOF", left[1], left[3][:150]
        elif open_goal:
            path, last = f"crates/{crate}/{open_goal[1]}", int(open_goal[2])
            lines = text_of(path).split("\n")
            while lines[last - 1].lstrip().startswith("#["):
                last += 1
            yield "", path_of(path, len("\n".join(lines[:last]))) or open_goal[1], open_goal[3]
        elif error and not CASCADE.search(error[3]):
            path, goal, why = error.groups()
            proof, is_gone = PROOF_OF.fullmatch(path), not goal or GONE.search(why)
            kind = "UNREAD" if not path.startswith("proofs/") else "STALE" if is_gone else ""
            place = f"{crate}/{proof[1]}".replace("/", "::") if proof else path
            yield kind, place, ": ".join(filter(None, [goal, kind and why[:100]]))


def verdict(edit, found):
    """The line of an edit, by what was refused in its functions."""
    mine = [it for it in found if it[0] == "UNREAD" or edit.holds(it[1])]
    fails = {kind: f"{kind} {place}: {why}" for kind, place, why in reversed(mine) if kind}
    names, goals = {}, {}
    for place, goal in (it[1:] for it in mine if not it[0]):
        names[named(place)] = max(names.get(named(place), ""), place, key=len)
        goals.setdefault(named(place), {})[goal] = True
    told = "; ".join(f"{name}: {', '.join(filter(None, goals[it]))}" for it, name in names.items())
    return fails.get("UNREAD") or fails.get("STALE") or told or fails.get("NO PROOF", "PROVED")


def judged(edit, found, output):
    """The line of an edit, by what a check refused and all that it said."""
    line = verdict(edit, found)
    if not HAS_ENDED.search(output) and not line.startswith("UNREAD"):
        return "NO CHECK " + output.strip().split("\n")[-1][:200]
    return line


@functools.cache
def files_of(crate):
    """The files of a crate that a check reads, by their places there: read once, so that what is tried is what the sums
    are of."""
    found = (it for part in PARTS for it in files_in(f"{CRATES}/{crate}/{part}"))
    return {os.path.relpath(it, f"{CRATES}/{crate}"): pathlib.Path(it).read_bytes() for it in found}


def put_edited(folder, edits):
    """Puts the files of a crate with these edits into a folder."""
    files = {**files_of(edits[0].crate)}
    # The last change of a file first, so that each stands where it does in the text without any edit.
    for path, start, end, new in sorted((it for edit in edits for it in edit.changes), key=lambda it: -it[1]):
        text = files[path].decode()
        files[path] = f"{text[:start]}{new}{text[end:]}".encode()
    for path, text in files.items():
        os.makedirs(os.path.dirname(f"{folder}/{path}"), exist_ok=True)
        pathlib.Path(folder, path).write_bytes(text)


def check_of(kit, top, crate):
    """What the toolchain in the folder kit is told to check a crate, over the built libraries of a checkout."""
    source = "src/main.rt" if os.path.isfile(f"{CRATES}/{crate}/src/main.rt") else "src/lib.rt"
    return [f"{kit}/bin/rattle", "check", *over_built(kit, top, crate, crates()), source]
