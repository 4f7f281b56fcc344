"""Tries as plain dicts, and what trie_shell answers to lines about them, for the checks of tools/checks/random_tries.

A list of nibbles is a text of hexadecimal digits, and these stand in the nibbles' order. What docs/DEFINITIONS.md
defines is computed as it is said there, of all the lists that are stored.
"""
import bisect
import contextlib
import functools
import itertools
import re
from os.path import commonprefix

from sources import shell_forms

DIGITS, NUMBERS, QUOTES = "0123456789abcdef", 2**64, '""'
# The types of integers, each with its bytes, and all types of keys.
BYTES = {"u8": 1, "u16": 2, "u32": 4, "u64": 8, "u128": 16, "usize": 8, "i8": 1, "i16": 2, "i32": 4, "i64": 8,
         "i128": 16, "isize": 8}
KINDS = ["text", "bytes", "nibbles", "bits", "bool", "char", "ipv4", "ipv6", "parts", *BYTES]
PLAIN = {it: chr(it) for it in range(0x21, 0x7F)}
ESCAPES = {**PLAIN, **{ord(it): f"\\{it}" for it in '\\"'}, ord(" "): "\\s"}
# Characters that show as nothing or as a space, or turn the text around them, from the first to the last of each row:
# controls, white space, what Unicode lets be ignored (DerivedCoreProperties.txt), and signs of annotations.
HIDDEN = [(0x0, 0x20), (0x7F, 0xA0), (0xAD, 0xAD), (0x34F, 0x34F), (0x61C, 0x61C), (0x115F, 0x1160), (0x1680, 0x1680),
          (0x17B4, 0x17B5), (0x180B, 0x180F), (0x2000, 0x200F), (0x2028, 0x202F), (0x205F, 0x206F), (0x3000, 0x3000),
          (0x3164, 0x3164), (0xFE00, 0xFE0F), (0xFEFF, 0xFEFF), (0xFFA0, 0xFFA0), (0xFFF0, 0xFFFB), (0x1BCA0, 0x1BCA3),
          (0x1D173, 0x1D17A), (0xE0000, 0xE0FFF)]
NOT_HERE, OTHER_COUNT, FORMS = "no such call here", "another count of words", shell_forms()


def is_shown(character):
    return not any(first <= ord(character) <= last for first, last in HIDDEN)


def word_of(data):
    """The word that stands for these bytes: of a text its characters, where a reader sees them."""
    with contextlib.suppress(UnicodeDecodeError):
        return "".join(it if it > "\x7f" and is_shown(it) else bytewise(it.encode()) for it in data.decode()) or QUOTES
    return bytewise(data)


def bytewise(data):
    return "".join(ESCAPES.get(it, f"\\x{it:02x}") for it in data)


def begun(word):
    """The same word where it begins a line of an answer."""
    return f"\\x{ord(word[0]):02x}{word[1:]}" if word[0] in "#>" else word


def starting(lists, path):
    """Those of the sorted lists that begin with the path."""
    return lists[bisect.bisect_left(lists, path) : bisect.bisect_left(lists, f"{path}g")]


def beginnings(lists, at):
    """Those of the sorted lists that begin this one, the shortest first."""
    return [it for it in lists if at.startswith(it)]


def rows(lines):
    return "\n".join(lines) or "none"


class Trie:
    """Numbers by their lists, and the points of these."""

    def __init__(self, pairs=()):
        self.pairs = dict(pairs)

    @functools.cached_property
    def lists(self):
        return sorted(self.pairs)

    @functools.cached_property
    def points(self):
        """The empty list, the stored ones, and where two of them part: of those that part there, two are neighbours."""
        return sorted({"", *self.lists, *map(commonprefix, itertools.pairwise(self.lists))})

    def change(self, pairs):
        """Stores each number at its list, or nothing."""
        for at, number in pairs:
            self.pairs[at] = number
            if number is None:
                del self.pairs[at]
        for it in ("lists", "points"):
            self.__dict__.pop(it, None)
        return "ok"

    def cut(self, path=""):
        """Takes all pairs at and below the path."""
        found = {it: self.pairs[it] for it in starting(self.lists, path)}
        self.change(dict.fromkeys(found).items())
        return found

    def above(self, at):
        """The longest stored list that begins this one, or none."""
        return beginnings(self.lists, at)[-1:]

    def point_below(self, at):
        return min(starting(self.points, at), key=len, default=None)

    def children(self, path):
        return [it for it in (self.point_below(path + it) for it in DIGITS) if it is not None]

    def fragment(self, path):
        above = [it for it in beginnings(self.points, path) if it != path]
        return path[len(above[-1]) :] if above else ""

    def cost(self, at):
        """How many nodes a search visits, those at the points that begin its list, and how many nibbles it compares:
        one more than it finds where it leaves a fragment inside."""
        common = max((len(commonprefix([at, it])) for it in self.lists), default=0)
        return len(beginnings(self.points, at)), common + (common < len(at) and at[:common] not in self.points)

    def footprint(self):
        """The counts of points, and of lists but the empty one that begin stored ones."""
        steps = itertools.pairwise(["", *self.lists])
        return len(self.points), sum(len(it) - len(commonprefix([last, it])) for last, it in steps)

    def tree(self, path=""):
        """The points at and below a point in order, each with how many of them stand above it."""
        way = []
        for it in starting(self.points, path):
            while way and not it.startswith(way[-1]):
                way.pop()
            way.append(it)
            yield len(way) - 1, it


class View:
    """What stands at and below a path, which had this fragment when the view was opened. A trie is its own view, and
    what a view hasn't is its trie's."""

    def __init__(self, shell, trie, path=""):
        self.shell, self.trie, self.path, self.words = shell, trie, path, shell.words
        self.fragment = trie.fragment(path) if path else ""

    def __getattr__(self, name):
        return getattr(self.trie, name)

    @property
    def below(self):
        return starting(self.lists, self.path)

    def told(self, lists):
        """The pairs that are stored at these lists."""
        return rows(begun(self.pair(it)) for it in lists if it in self.pairs)

    def pair(self, at):
        return f"{self.words[at]} {self.pairs[at]}"

    def values(self, *lists):
        return rows(str(self.pairs[it]) for it in lists if it in self.pairs)

    def named(self, lists):
        return rows(begun(self.words[it]) for it in sorted(lists))

    def views(self, *lists):
        """The lines of the views that stand there."""
        return rows(f"{it or QUOTES} {self.values(it)}" for it in lists if it in self.points)

    def put(self, at, number, absent="none"):
        """Stores the number, or nothing, and tells of the old one."""
        said = str(self.pairs.get(at, absent))
        self.change([(at, number)])
        return said

    def taken(self, lists):
        """Removes these, and tells of the pairs."""
        said = self.told(lists)
        self.change([(it, None) for it in lists])
        return said

    def written(self, at, number, absent="none"):
        """Writes the value of a pair that is stored."""
        return self.put(at, number) if at in self.pairs else absent

    def add(self, added, lists, but=None):
        """Adds the number to the values at these lists but one."""
        return self.change([(it, (self.pairs[it] + added) % NUMBERS) for it in lists if it != but])

    def retain(self, least, lists):
        return self.change([(it, None) for it in lists if self.pairs[it] < least])

    def debug(self):
        logged = LOGGED.get(self.shell.kind, lambda at: self.words[at].strip('"'))
        return "{%s}" % ", ".join(f"{logged(it)}: {self.pairs[it]}" for it in self.below)

    def draw(self, path):
        tree = self.tree(path) if path in self.points else ()
        found = [(f"{'  ' * depth}{self.trie.fragment(it) or QUOTES}", it) for depth, it in tree]
        return rows(f"{start} {self.pair(it) if it in self.pairs else '*'}" for start, it in found)

    def dot(self):
        """A box for each pair, a circle for each other point, and what stands between two of them."""
        lines = []
        for it in self.points:
            label = f"label={quoted(self.pair(it))}" if it in self.pairs else 'shape=circle, label="", width=0.2'
            lines.append(f'  "{it}" [{label}]')
            lines += (f'  "{it}" -> "{child}" [label={self.edge(it, child)}]' for child in self.children(it))
        return rows(["digraph {", "  node [shape=box]", *lines, "}"])

    def edge(self, path, child):
        """The characters between two points, if they are whole and seen, or the nibbles."""
        part = child[len(path) :]
        if self.shell.kind in ("text", "bytes") and len(path) % 2 == len(part) % 2 == 0:
            with contextlib.suppress(UnicodeDecodeError):
                if all(it == " " or is_shown(it) for it in bytes.fromhex(part).decode()):
                    return quoted(word_of(bytes.fromhex(part)))
        return quoted(part)

    def within(self, bounds, lists):
        """The pairs of these lists between two bounds, or what is wrong with them."""
        return bounds if isinstance(bounds, str) else self.told(it for it in lists if all(has(it) for has in bounds))

    def stats(self):
        counts = len(self.pairs), *self.footprint(), max(depth for depth, _ in self.tree())
        return rows(f"{name} {count}" for name, count in zip(("pairs", "nodes", "nibbles", "depth"), counts))

    def to_ascending(self):
        """The pairs by their lists with the highest bit turned over."""
        is_signed = self.shell.kind[0] == "i" and self.shell.kind[:2] != "ip"
        ordered = sorted(self.lists, key=lambda it: f"{int(it[0], 16) ^ 8:x}{it[1:]}") if is_signed else []
        return self.told(ordered) if is_signed else "no signed keys"

    def matching(self, topic):
        """The pairs whose keys are filters that match the topic: at each level the same one before any, and that before
        the rest."""
        if self.shell.kind != "parts":
            return "no lists of parts"
        levels = levels_of(topic)
        is_reserved = bool(levels) and levels[0][:1] == b"$"
        found = sorted((way, it) for it in self.lists for way in matches(levels_of(it), levels))
        return self.told(it for way, it in found if not (is_reserved and way[0]))

    def graft(self, part):
        """Moves all pairs of the part to the trie, unless a point stands at or below the list that all of them begin
        with."""
        if part is self.trie:
            return NO["O"]
        if self.pairs and part.pairs and self.point_below(commonprefix(part.lists)) is not None:
            return "overlapping"
        return self.change(part.cut().items())


def quoted(text):
    """A text as a file for graphviz has it."""
    return '"%s"' % text.replace("\\", "\\\\").replace('"', '\\"')


def levels_of(at):
    """The parts of a list of them, by its encoding."""
    return bytes.fromhex(at).split(b"\0")[:-1]


def matches(filter, topic):
    """Each way in which the filter matches the levels: 0 for the same level, 1 for any, 2 for the rest."""
    ways = [[way for way, it in enumerate((level, b"+")) if it == part] for part, level in zip(filter, topic)]
    if len(filter) == len(topic):
        yield from itertools.product(*ways)
    if filter[-1:] == [b"#"] and len(filter) <= len(topic) + 1:
        yield from ((*before, 2) for before in itertools.product(*ways[: len(filter) - 1]))


def escaped(text, quote):
    """A text as Rust's `escape_debug` has it, between such quotes."""
    known = {"\\": "\\\\", "\0": "\\0", "\t": "\\t", "\n": "\\n", "\r": "\\r", quote: f"\\{quote}"}
    inner = "".join(known.get(it, it if it.isprintable() else f"\\u{{{ord(it):x}}}") for it in text)
    return f"{quote}{inner}{quote}"


# What a log has of a key with this list, as `{:?}` writes it, where that isn't the key's word.
LOGGED = {
    "bytes": lambda at: str([*bytes.fromhex(at)]),
    "text": lambda at: escaped(bytes.fromhex(at).decode(), '"'),
    "char": lambda at: escaped(chr(int(at, 16)), "'"),
    "parts": lambda at: "[%s]" % ", ".join(escaped(it.decode(), '"') for it in levels_of(at)),
}


def inside(call):
    """The call at a list that lies below the view's path; another one is outside."""
    return lambda v, at, *more: call(v, at, *more) if at.startswith(v.path) else "outside"


def run(v, commands):
    """The replies to commands."""
    view, said, is_open = v, [], True
    for name, read in commands:
        if name == "within":
            view, is_open = View(v.shell, v.trie, *read), read[0] in v.points
            said.append("replies" if is_open else "closed")
        elif is_open:
            said.append(inside(COMMANDS[name][1])(view, *read) if read else COMMANDS[name][1](view))
        if name == "end":
            view, is_open = v, True
    return rows(said)


def opened(v, at, places, absent):
    """Opens a view there, or answers this where no point is."""
    if at in v.points:
        v.shell.views.append((at, places))
    return v.views(at) if at in v.points else absent


def in_with(v, at, lines, absent):
    """Calls of one view, which outlives its point."""
    if at not in v.points:
        return absent
    view = View(v.shell, v.trie, at)
    return "\n".join(v.shell.call(it, view, "wx") for it in lines)


# What calls answer, by their names, each with its words and the places where it can be made. The words: K a key to
# store, T a topic, Q a key or a list to look up, q none or one, b two bounds at most, L a list, N a number, P pairs, S
# pairs in order, M a name, O that of a trie that there is, F that of a frozen trie, G that of one that there is, Y a
# type of keys, c a call that tries and views have in common, t a call of a trie or of a view, f one of a frozen trie, v
# calls of a view, r commands. The places: t tries, n the current one where no view is open, r views for reading, w
# views for writing, x these, which the call takes, c behind `spend`, f frozen tries, s anywhere, but behind no other
# call. And l: it takes no memory, m: it takes none where its list has at most 32 nibbles.
ANSWERS = {
    "key - trwcl": lambda v: v.named({v.path} & v.pairs.keys()),
    "value - trwcl": lambda v: v.values(v.path),
    "len - trwcfl": lambda v: len(v.below),
    "is_empty - trwcfl": lambda v: not v.below,
    "is_leaf - trwcl": lambda v: v.below in ([], [v.path]),
    "prefix - trwc": lambda v: v.fragment or QUOTES,
    "iter - trwcf, cursor - trwc": lambda v: v.told(v.below),
    "cursor_back - trwc": lambda v: v.told(reversed(v.below)),
    "keys - trwcf": lambda v: v.named(v.below),
    "values - trwcf": lambda v: v.values(*v.below),
    "range b trwcf, reserved b trwc": lambda v, bounds: v.within(bounds, v.below),
    "range_back b trwcf": lambda v, bounds: v.within(bounds, reversed(v.below)),
    "first_key_value - trwcfl": lambda v: v.told(v.below[:1]),
    "last_key_value - trwcfl": lambda v: v.told(v.below[-1:]),
    "path - rw": lambda v: v.path or QUOTES,
    "get Q trwfm, at L tl": inside(lambda v, at: v.values(at)),
    "count_below Q trwfm": inside(lambda v, at: len(starting(v.lists, at))),
    "children - trw, into_children - x": lambda v: v.views(*v.children(v.path)),
    "debug - trw": lambda v: v.debug(),
    "subtrie Q trm": inside(lambda v, at: v.views(at)),
    "first_below QN trf": inside(lambda v, at, most: v.told(starting(v.lists, at)[:most])),
    "insert KN tw, entry_insert KN t": inside(lambda v, at, number: v.put(at, number)),
    "remove Q tw": inside(lambda v, at: v.put(at, None)),
    "remove_prefix Q tw": inside(lambda v, at: v.taken(starting(v.lists, at))),
    "value_mut N twl": lambda v, number: v.written(v.path, number),
    "for_each_mut KN twf": lambda v, other, added: v.add(added, v.below, other),
    "retain N tw": lambda v, least: v.retain(least, v.below),
    "get_counted Q tm": lambda v, at: f"{v.values(at)} {v.cost(at)[1]}",
    "get_with_cost Q tm": lambda v, at: f"{v.values(at)} {v.cost(at)[0]} {v.cost(at)[1]}",
    "contains_key Q tfm, contains L tl": lambda v, at: at in v.pairs,
    "get_key_value Q tfm": lambda v, at: v.told([at]),
    "get_ancestor Q tm": lambda v, at: v.views(*v.above(at)),
    "get_ancestor_value Q tm, nearest_value L tl": lambda v, at: v.values(*v.above(at)),
    "get_raw_ancestor Q tm": lambda v, at: v.views(beginnings(v.points, at)[-1]),
    "get_raw_descendant Q tm": lambda v, at: v.views(v.point_below(at)),
    "common_prefixes Q tfm": lambda v, at: v.told(beginnings(v.lists, at)),
    "first_after QQN t": lambda v, at, last, n: v.told([it for it in starting(v.lists, at) if it > last][:n]),
    "longest_match Q tfm, nearest L tl": lambda v, at: v.told(v.above(at)),
    "nearest_with_cost L tl": lambda v, at: "{} {} {}".format(v.told(v.above(at)), *v.cost(at)),
    "footprint - tl": lambda v: "{} {}".format(*v.footprint()),
    "check_integrity - t": lambda v: True,
    "remove_entry Q t, entry_remove K t": lambda v, at: v.taken([at]),
    "map_with_default KNN t":
        lambda v, at, added, number: v.add(added, [at]) if at in v.pairs else v.change([(at, number)]),
    "try_insert KN t": lambda v, at, number: "occupied" if at in v.pairs else v.change([(at, number)]),
    "get_or_insert KNN t, entry_or_insert KNN t, entry_or_insert_with KNN t":
        lambda v, at, default, number: v.put(at, number, default),
    "entry K t": lambda v, at: f"{begun(v.words[at])} {v.values(at)} {str(at in v.pairs).lower()}",
    "entry_into_key K t": lambda v, at: begun(v.words[at]),
    "entry_and_modify KN t": lambda v, at, added: v.add(added, [at] if at in v.pairs else []),
    "get_mut QN tfm, entry_get_mut KN t, at_mut LN tl": View.written,
    "find_mut QN tfm": lambda v, at, number: v.written(at, number, "absent"),
    "find_ancestor_mut QN tm": lambda v, at, number: v.put(*v.above(at), number) if v.above(at) else "absent",
    "pop_first - t": lambda v: v.taken(v.below[:1]),
    "pop_last - t": lambda v: v.taken(v.below[-1:]),
    "into_pairs - t": lambda v: v.taken(v.below),
    "clear - tl": lambda v: v.retain(NUMBERS, v.below),
    "compact - t, finish - f": lambda v: "ok",
    "for_each_mut_below QKN t": lambda v, at, other, added: v.add(added, starting(v.lists, at), other),
    "retain_below QN t": lambda v, at, least: v.retain(least, starting(v.lists, at)),
    "extend P t": lambda v, pairs: v.change(pairs),
    "from_iter P t": lambda v, pairs: v.change([*((it, None) for it in v.below), *pairs]),
    "draw q t": View.draw,
    "dot - t": View.dot,
    "stats - t": View.stats,
    "to_ascending - t": View.to_ascending,
    "matching T t": View.matching,
    "run r t": run,
    "with Qv n": lambda v, at, lines: in_with(v, at, lines, "closed"),
    "with_subtrie_mut Qv n": lambda v, at, lines: in_with(v, at, lines, "none"),
    "spend c x": lambda v, line: v.shell.call(line, v, "c"),
    "into_trie t x": lambda v, line: v.shell.call(line, View(v.shell, v.trie), "t"),
    "below Q tf": lambda v, at: v.told(starting(v.lists, at)),
    "nth N f": lambda v, place: v.told(v.lists[place:][:1]),
    "rank Q f": lambda v, at: bisect.bisect_left(v.lists, at),
    "push KN f": lambda v, at, number: "unsorted" if v.lists[-1:] >= [at] else v.change([(at, number)]),
    "open Q sm": lambda v, at: opened(v, at, "r", "none"),
    "open_mut Q sm": lambda v, at: opened(v, at, "wx", "closed"),
    "subtrie_mut Q sm": lambda v, at: opened(v, at, "wx", "none"),
    "close - s": lambda v: "ok" if v.shell.views and v.shell.views.pop() else "none",
    "begin Y s": lambda v, kind: v.shell.begin(kind),
    "use M s": lambda v, name: v.shell.use(name),
    "tries - s": lambda v: rows(begun(word_of(it.encode())) for it in v.shell.names),
    "clone M s": lambda v, name: v.shell.put(name, lambda: v.pairs),
    "split_off_prefix QM s": lambda v, at, name: v.shell.put(name, lambda: v.cut(at)),
    "graft O s": View.graft,
    "merge O s": lambda v, other: v.change(other.pairs.items()),
    "== O s": lambda v, other: v.pairs == other.pairs,
    "intersection O s": lambda v, other: v.named(v.pairs.keys() & other.pairs.keys()),
    "difference O s": lambda v, other: v.named(v.pairs.keys() - other.pairs.keys()),
    "union O s": lambda v, other: v.named(v.pairs.keys() | other.pairs.keys()),
    "symmetric_difference O s": lambda v, other: v.named(v.pairs.keys() ^ other.pairs.keys()),
    "is_subset O s": lambda v, other: v.pairs.keys() <= other.pairs.keys(),
    "is_superset O s": lambda v, other: v.pairs.keys() >= other.pairs.keys(),
    "is_disjoint O s": lambda v, other: not v.pairs.keys() & other.pairs.keys(),
    "freeze F s": lambda v, name: v.shell.freeze(name, v.cut()),
    "frozen_copy F s": lambda v, name: v.shell.freeze(name, v.pairs),
    "from_sorted FS s": lambda v, name, pairs: v.shell.from_sorted(name, pairs),
    "thaw F s": lambda v, name: "occupied" if v.pairs else v.shell.thaw(name),
    "frozen Gf s": lambda v, frozen, line: v.shell.call(line, View(v.shell, frozen), "f"),
}
CALLS = {name: (words.strip("-"), places, answer) for names, answer in ANSWERS.items()
         for name, words, places in (it.split(" ") for it in names.split(", "))}
PLACES = {place: [it for it, (_, places, _) in CALLS.items() if place in places] for place in "trwxcf"}
# The words of commands, and what replies to them.
COMMANDS = {
    "insert": ("KN", lambda v, at, number: f"old {v.put(at, number)}"),
    "remove": ("K", lambda v, at: f"old {v.put(at, None)}"),
    "remove_prefix": ("K", lambda v, at: " ".join(["gone", *map(str, v.cut(at).values())])),
    "get": ("K", lambda v, at: f"found {v.values(at)}"),
    "ancestor": ("K", lambda v, at: f"found {v.values(*v.above(at))}"),
    "len": ("", lambda v: str(len(v.below))),
    "within": ("K", None),
    "end": ("", lambda v: "end"),
}
# Lists of commands: those of a view stand between `within` and `end`, and none of them has a view or an ancestor.
LISTS = re.compile("(?:within( (?!within|ancestor|end)[a-z_]+)* end |(?!within|end)[a-z_]+ )*")
# The tests of lists that bounds are, by their signs.
BOUNDS = {">": lambda at: lambda it: it > at, ">=": lambda at: lambda it: it >= at,
          "<": lambda at: lambda it: it < at, "<=": lambda at: lambda it: it <= at}
# What is answered where a word stands for nothing.
NO = {"K": "no key", "T": "no key", "Q": "no key", "q": "no key", "L": "no list", "N": "no number", "P": "no pairs",
      "S": "no pairs", "r": "no commands", "O": "no other trie", "G": "no frozen trie", "Y": "no type of keys"}


def misfit(line):
    """Why the line asks for no call, or for one that makes another by words that ask for none; else nothing."""
    name, *words = line.split(" ")
    if name not in CALLS:
        return NOT_HERE
    kinds = CALLS[name][0]
    least = sum(it not in "qbPSr" for it in kinds)
    most = len(words) if {*kinds} & {*"PStvrfc"} else len(kinds) + ("b" in kinds)
    if not least <= len(words) <= most:
        return f"{OTHER_COUNT}: {FORMS[name]}"
    return misfit(" ".join(words)) if kinds in ("c", "t") else ""


def hindrance(kinds, words):
    """Why a call isn't made, whatever its keys, lists and numbers stand for: it has an empty name, or makes other calls
    by lines that ask for none, or that follow the one which takes the view."""
    if any(kind in "MOFG" and not word for kind, word in zip(kinds, words)):
        return "no name"
    text, is_taken = " ".join(words[len(kinds) - 1 :]), False
    for line in text.split(" ; ") if "v" in kinds else [text] if {*kinds} & {*"ctf"} else []:
        if why := NOT_HERE if is_taken else misfit(line):
            return why
        is_taken = line.split(" ")[0] in PLACES["x"]
    return ""


class Shell:
    """The tries by their names, the current one's first, the frozen ones by theirs, the views that are open, and the
    keys by their words."""

    def __init__(self, kind):
        self.keys, self.words = {}, {}
        self.begin(kind)

    def begin(self, kind):
        """Drops all tries. The words of keys stay known."""
        self.kind, self.views = kind, []
        self.names, self.tries, self.frozen = ["trie"], {"trie": Trie()}, {}
        return "ok"

    @property
    def holds_pairs(self):
        return any(it.pairs for it in (*self.tries.values(), *self.frozen.values()))

    @property
    def trie(self):
        return self.tries[self.names[0]]

    def learn(self, word, at):
        """The word writes the key of this list."""
        self.keys[word], self.words[at] = at, word

    def read(self, kind, words):
        """What the next word stands for, or all of them, or None."""
        if kind in "ctf":
            return " ".join(words)
        if kind == "v":
            return " ".join(words).split(" ; ")
        if kind == "r":
            read = [(it, [self.read(kind, words) for kind in COMMANDS.get(it, ("K",))[0]]) for it in words]
            is_list = LISTS.fullmatch("".join(f"{name} " for name, _ in read))
            return read if is_list and not any(None in it for _, it in read) else None
        if kind == "b":
            return self.bounds([*words])
        if kind in "PS":
            read = [(self.keys.get(it), self.read("N", words)) for it in words]
            return None if any(None in it for it in read) else read
        return self.meaning(kind, next(words, "\\="))

    def bounds(self, words):
        """Tests of lists, by words that write from where and up to where these go, or what is wrong with the words."""
        tests = []
        signs = ">" if len(words) == 2 else "<" if words and words[0][:1] == "<" else ">"
        for sign, word in zip(signs + "<", words):
            found = re.fullmatch(f"{sign}(=?)(.*)", word, re.S)
            at = found and self.meaning("Q", found[2])
            if at is None:
                return NO["Q"] if found else "no range"
            tests.append(BOUNDS[sign + found[1]](at))
        return tests

    def meaning(self, kind, word):
        """What a word stands for, or None."""
        if kind in "Qq" and word.startswith("\\="):
            kind, word = "L", word[2:] or QUOTES
        if kind == "L":
            return "" if word == QUOTES else word.lower() if {*word.lower()} <= {*DIGITS} else None
        if kind == "N":
            return int(word) if word.isdigit() and int(word) < NUMBERS else None
        if kind == "T" and self.kind != "parts":
            return ""
        if kind == "Y":
            return word if word in KINDS else None
        return word if kind in "MF" else {"O": self.tries, "G": self.frozen}.get(kind, self.keys).get(word)

    def answer(self, line):
        """The lines of the answer, or an empty text."""
        name, *words = line.split(" ")
        if name == "keys" and words:
            kind = self.meaning("Y", words[0])
            return "tries hold pairs" if kind and self.holds_pairs else self.begin(kind) if kind else NO["Y"]
        if "s" in CALLS[name][1]:
            return self.call(line, View(self, self.trie), "s")
        path, places = self.views[-1] if self.views else ("", "tn")
        is_open = not path or path in self.trie.points
        return self.call(line, View(self, self.trie, path), places) if is_open else "closed"

    def call(self, line, view, places):
        """What a call of the view answers in one of these places."""
        name, *words = line.split(" ")
        kinds, known, answer = CALLS[name]
        if why := hindrance(kinds, words) if {*places} & {*known} else NOT_HERE:
            return why
        words = iter(words)
        read = [self.read(it, words) for it in kinds]
        said = NO[kinds[read.index(None)]] if None in read else answer(view, *read)
        return said if isinstance(said, str) else str(said).lower()

    def use(self, name):
        """The trie of this name and the current one change places."""
        if name not in self.names:
            self.put(name, tuple)
        place = self.names.index(name)
        self.names[0], self.names[place], self.views = name, self.names[0], [] if place else self.views
        return "ok"

    def put(self, name, pairs):
        """Makes a trie of what the function gives, under a name that isn't the current trie's."""
        if name == self.names[0]:
            return NO["O"]
        self.names += [name] if name not in self.names else []
        self.tries[name] = Trie(pairs())
        return "ok"

    def freeze(self, name, pairs):
        self.frozen[name] = Trie(pairs)
        return "ok"

    def from_sorted(self, name, pairs):
        rising = [one < other for (one, _), (other, _) in itertools.pairwise(pairs)]
        return self.freeze(name, pairs) if all(rising) else f"unsorted {rising.index(False) + 1}"

    def thaw(self, name):
        if name not in self.frozen:
            return NO["G"]
        self.tries[self.names[0]] = self.frozen.pop(name)
        return "ok"
