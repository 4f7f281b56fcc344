"""The page of all public calls, docs/API.md, as the sources document them."""
import re

from shared import text_of
from sources import bare, functions_of, sources_of

PAGE = "docs/API.md"
# The libraries that users call, in the order of the page.
CRATES = ["radix_trie", "frozen_trie", "frozen_routes", "frozen_networks", "flat_routes", "flat_texts", "flat_tries"]
CRATES += ["prefix_maps", "keyed_maps", "trie_set", "topic_filters", "radix_keys", "address_ranges"]
# The types that a reader looks for first, in their order; functions and laws come last.
FIRST = ["Trie", "SubTrie", "SubTrieMut", "TrieCommon", "TrieEdit", "Entry", "Cursor", "CursorBack", "Combination"]
FUNCTIONS = "functions and laws"
HEAD = """# All public calls

Made by `tools/checks/texts --write` of the sources' own texts. By library and type: what a call returns, when it fails, what
it costs where that isn't the way down to its key, and an example where there is one: Rust over the crate `nifazombi`,
without the lines that rustdoc hides. What is proved of each call, its clauses, stands in the library's page for
callers.
"""
# The lines of a comment right above an item, and of that the head of a section.
DOCUMENTED = re.compile(r"((?:^ *///.*\n)*)(?:^ *#\[.*\n)*\Z", re.M)
TYPE = re.compile(r"((?:^///.*\n)+)(?:^#\[.*\n)*^pub (?:struct|enum|trait) (\w+)", re.M)
SECTION = re.compile(r"^# (\w+)\n\n?", re.M)
# An example, whose lines behind `# ` rustdoc hides.
CODE = re.compile(r"^```\w*\n.*?^```$", re.M | re.S)
HIDDEN = re.compile(r"^#(?: .*)?\n", re.M)


def comment(lines):
    """The text of a comment, as rustdoc shows it."""
    text = re.sub(r"^ */// ?", "", lines, flags=re.M).strip()
    text = CODE.sub(lambda it: HIDDEN.sub("", it[0]), text)
    return SECTION.sub(lambda it: f"*{it[1].removesuffix('s')}:* " if it[1] == "Errors" else "", text)


def documentation(item):
    return comment(DOCUMENTED.search(text_of(item.path)[: item.place])[1])


def module_of(item):
    """The public module of a library that an item's file is, or None."""
    crate, _, file = item.path.partition("/src/")
    name = file.removesuffix(".rt")
    return name if f"\npub mod {name};" in text_of(f"{crate}/src/lib.rt") else None


def owner_of(item):
    """The type, the trait or the public module under which a call stands: functions of none together."""
    names = map(bare, reversed(item.owner.halves)) if item.owner else ()
    return next((it for it in names if len(it) > 1), module_of(item) or FUNCTIONS)


def rank(owner):
    return owner == FUNCTIONS, FIRST.index(owner) if owner in FIRST else len(FIRST)


def anchor(title):
    return re.sub(r"[^\w -]", "", title).lower().replace(" ", "-")


def calls_of(crate):
    """The public calls of a crate that say what they do, by their types, each type once."""
    called = [it for it in functions_of(crate) if it.is_public and documentation(it)]
    groups = {}
    for item in called:
        groups.setdefault(owner_of(item), []).append(item)
    return groups


def hidden():
    """The documented functions of no type that a library's root doesn't hand on, so that none can call them."""
    for crate in CRATES:
        root = text_of(f"crates/{crate}/src/lib.rt")
        for item in calls_of(crate).get(FUNCTIONS, ()):
            module = item.path.partition("/src/")[2].partition("/")[0].removesuffix(".rt")
            if not re.search(rf"\bpub mod {module};|\b{item.name}\b", root):
                yield f"{item.path}: {item.name} is public, and no caller can name it"


def page():
    """The whole page."""
    contents, parts = [], []
    for crate in CRATES:
        texts = "".join(text_of(it) for it in sources_of(crate))
        types = {name: comment(lines) for lines, name in TYPE.findall(texts)}
        contents.append(f"- [`{crate}`](#{anchor(crate)})\n")
        parts.append(f"\n## {crate}\n\nClauses: [`crates/{crate}/CALLING.md`](../crates/{crate}/CALLING.md).\n")
        for owner, calls in sorted(calls_of(crate).items(), key=lambda it: rank(it[0])):
            title = f"{owner} of {crate}"
            names = ", ".join(dict.fromkeys(f"`{it.name}`" for it in calls))
            contents.append(f"  - [{owner}](#{anchor(title)}): {names}\n")
            parts.append(f"\n### {title}\n")
            parts += [f"\n{types[owner]}\n"] if owner in types else []
            parts += [f"\n    fn {it.signature}\n\n{documentation(it)}\n" for it in calls]
    return f"{HEAD}\n{''.join(contents)}{''.join(parts)}"
