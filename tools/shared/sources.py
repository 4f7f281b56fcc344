"""Reads the heads of functions, impls and traits in the sources of crates, as `rt fmt` lays them out."""
import dataclasses
import functools
import glob
import itertools
import re

from shared import ROOT, text_of

HEAD = re.compile(r"^( *)(pub(?:\([^)]*\))? )?(?:const |extern \S+ )?(fn|impl|trait)\b(.*?)(^\1\{|;$| \{\}?$)", re.M | re.S)
WORD = "(?:requires|ensures)"
CLAUSE = re.compile(rf"^ +({WORD}\*?(?: \w+)?) \{{(.*?)\}}(?=;?\s*(?:^ +{WORD}|\Z|^$))", re.M | re.S)


def paths(*patterns):
    """The paths below the checkout that fit a pattern, in its place and by name."""
    return [it for pattern in patterns for it in sorted(glob.glob(pattern, root_dir=ROOT, recursive=True))]


def plain(text):
    return " ".join(text.split())


@dataclasses.dataclass(eq=False)
class Item:
    """A function, an impl or a trait: its source's path, where it begins there, and its head without comments. Of a
    function the owner is the impl or the trait that it stands in, if any."""

    path: str
    place: int
    access: str
    kind: str
    text: str
    has_body: bool
    owner: "Item | None"

    @property
    def name(self):
        return re.match(r"\w*", self.text)[0]

    @functools.cached_property
    def halves(self):
        """What an impl is of: its trait, if any, and its type. Of a trait: nothing, and its name."""
        text = plain(self.text)
        if self.kind == "trait":
            return "", self.name
        if text.startswith("<"):
            depths = itertools.accumulate((it == "<") - (it == ">") for it in text.replace("->", "  "))
            text = text[[*depths, 0].index(0) + 1 :]
        trait, _, kind = text.partition(" where ")[0].rpartition(" for ")
        return trait.strip(), kind.strip()

    @property
    def is_of_trait(self):
        """Whether a trait itself has it."""
        return bool(self.owner) and self.owner.kind == "trait"

    @property
    def is_public(self):
        """Whether it is so by its own word, or as one of a public trait."""
        return "pub" in (self.access, self.is_of_trait and self.owner.access)

    @property
    def is_called(self):
        """Whether users call the function: it is public, or one of a trait's."""
        return self.is_public or bool(self.owner and self.owner.halves[0])

    @property
    def signature(self):
        head = re.split(r"^ +(?:requires|ensures|ghost|where)\b", self.text, maxsplit=1, flags=re.M)[0]
        return plain(head).replace("( ", "(").replace(", )", ")")

    @property
    def clauses(self):
        """Each clause: what stands before its braces, and what stands in them."""
        return [(label, plain(clause)) for label, clause in CLAUSE.findall(self.text)]


@functools.cache
def items_of(path):
    """The items of a source, by its path below the checkout, but for impls with nothing in them."""
    items, block = [], None
    for found in HEAD.finditer(text_of(path)):
        indent, access, kind, text, end = found.groups()
        if kind == "fn" or not end.endswith("}"):
            owner, text = block if indent else None, re.sub(r"^ *//.*\n", "", text, flags=re.M).lstrip()
            items.append(Item(path, found.start(), (access or "").strip(), kind, text, end != ";", owner))
            block = items[-1] if kind != "fn" else block
    return items


def sources_of(crate):
    return paths(f"crates/{crate}/src/**/*.rt")


def functions_of(crate):
    """The functions of a crate, without those of its tests."""
    return [it for path in sources_of(crate) if "/tests" not in path for it in items_of(path) if it.kind == "fn"]


def bare(name):
    """A type without its lifetimes and arguments."""
    return re.sub(r"'\w+ ?|<.*>", "", name).strip().replace("NibbleVec", "Nibblet")


def types_of(item):
    """The types that a function's impl or trait is of: where that is a parameter, those that have its bound."""
    kind = item.owner.halves[1]
    bound = re.search(rf"[<,] ?{re.escape(kind)}: (\w+)", plain(item.owner.text))
    if not bound:
        return [bare(kind)]
    impls = (it for path in sources_of(item.path.split("/")[1]) for it in items_of(path) if it.kind == "impl")
    return [bare(it.halves[1]) for it in impls if bare(it.halves[0]) == bound[1]]


def shell_forms():
    """The calls of trie_shell, each with the form that the first line of its help gives it."""
    told = re.findall(r'^    \w+ "(([^\s\["]+)[^"]*)"$', text_of("rust/shell/src/table.rs"), re.M)
    return {name: form for form, name in reversed(told)}


def refused_calls():
    """The public calls of tries, frozen ones and keys that return a `Result`, each with its source. Of the crate of
    nodes users have the checker alone. The shell has maps from byte strings as files alone, and no format of serde."""
    left_out = re.compile(r"/radix_nodes/src/(?!.*whole/checker\.rt)|/frozen_trie/src/(?:texts|file|formats)\b")
    for it in itertools.chain(*map(functions_of, ["radix_keys", "radix_nodes", "radix_trie", "frozen_trie"])):
        is_own = it.is_called and (it.has_body or not it.is_of_trait) and not left_out.search(it.path)
        if is_own and re.search(r"->.*\b(?:SubTrie)?Result<", it.signature):
            types = types_of(it) if it.owner else [""]
            yield from ((f"{kind}::{it.name}".removeprefix("::"), it.path) for kind in types)
