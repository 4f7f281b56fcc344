"""The sessions of the programs: what is read, and what has to be answered.

A file of sessions/ is a text of lines: `= ` and a session's name, where it begins; `> ` and a line of input, `< ` and a
line of the answer to it, `! ` and what stands on standard error at the end; `@ N`: the next line of input is given N
times, and answered as often; `$ `: the words that the program is started with; `% `: the name of a file that is there
before, a space, and its bytes; `# `: a remark. `\\xNN` is a byte, `\\(x*N)` a byte N times, `\\\\` a backslash, and
where a single one ends a line of input, no line feed ends it. A file of runs/ is one session, or several as above; each
of its lines but those of `% ` stands for itself, and one that begins with none of these marks is a line of the answer.
A line of input of the shell behind `inline ` is given without that: its call takes no memory in the library.
"""
import copy
import functools
import itertools
import pathlib
import re
import time

from shared import ROOT

READ_FAILED = b"read failed\n", 1
# Failing lines are left out for at most so long.
SECONDS = 30
# What a line of trie_shell calls in the library, by the first pattern that its beginning is like, up to a space or the
# end; PLACE is the view that is open, or the trie. Views and tries have in common what is called by a reference.
CALLS = [
    (r"frozen \S* get 2001:.*", "FrozenTrie::get + Encoding::of"),
    (r"frozen \S* (\S*)", r"FrozenTrie::\1"),
    (r"frozen|keys \S*|begin", ""),
    (r"open", "Trie::subtrie"),
    (r"open_mut|with", "Trie::open_mut"),
    (r"subtrie_mut|with_subtrie_mut", "Trie::subtrie_mut"),
    (r"encode &String.*", "&T::encode"),
    (r"encode &mut.*", "&mut T::encode"),
    (r"encode \[.*", "[u8; N]::encode"),
    (r"encode \(.*", "(A, B)::encode"),
    (r"encode ([^ <]*).*", r"\1::encode"),
    (r"encode_bytes", "TrieKey::encode_bytes"),
    (r"entry", "Trie::entry + Entry::key + Entry::get + Entry::is_occupied"),
    (r"entry_(\S*)", r"Trie::entry + Entry::\1"),
    (r"nibblet (\S*)", r"Nibblet::\1"),
    (r"bits (\S*)", r"Bits::\1"),
    (r"ipv[46] (\S*)", r"Network::\1"),
    (r"parts (\S*)", r"Parts::\1"),
    (r"check_integrity", "Trie::check_integrity + TrieNode::check_integrity_recursive"),
    (r"json", "from_value + to_value"),
    (r"write", "FrozenTexts::write"),
    (r"write_image", "to_image"),
    (r"read", "FrozenTexts::read + FrozenTrie::push + FrozenTrie::finish"),
    (r"read_image", "from_image + FrozenTrie::push + FrozenTrie::finish"),
    (r"(run|freeze|frozen_copy)", r"\1"),
    (r"run_once", "run"),
    (r"(from_sorted|thaw)", r"FrozenTrie::\1"),
    (r"into_children", "SubTrieMut::into_children"),
    (r"(intersection|union|difference)", r"Combination::new + Combination::next + TrieSet::\1"),
    (r"(symmetric_difference|is_(?:subset|superset|disjoint))", r"TrieSet::\1"),
    (r"cursor", "&PLACE::cursor + Cursor::next"),
    (r"cursor_back", "&PLACE::cursor_back + CursorBack::next"),
    (r"below", "PLACE::below + Cursor::next"),
    (r"range", "&PLACE::range + Cursor::next"),
    (r"range_back", "&PLACE::range_back + CursorBack::next"),
    (r"reserved", "&PLACE::range + Cursor::reserved"),
    (r"(iter|keys|values|prefix)", r"&PLACE::\1"),
    (r"(\S*)", r"PLACE::\1"),
]
# What a line of route_tool calls in the library, or one of these, by the table that its routes are in and their family.
ROUTE_CALLS = {
    "add": "Trie::insert", "del": "Trie::remove", "below": "Trie::get_raw_descendant", "compact": "frozen_copy",
    "look": "Trie::nearest + FrozenRoutes::longest_match", "find": "Trie::nearest + FrozenRoutes::longest_match",
    "open": "ipv4::from_image + ipv6::from_image + thawed_copy", "aggregate": "least",
    "write_ipv4": "FrozenRoutes::from_sorted + ipv4::to_image",
    "write_ipv6": "FrozenRoutes::from_sorted + ipv6::to_image",
}
# What marks a line of a session of trie_shell whose call of the library takes no memory: the shell isn't given it.
INLINE = b"inline "
ESCAPE = re.compile(rb"\\(?:x([0-9a-f]{2})|\((.)\*(\d+)\)|(\\))")


class Exchange:
    """A line of input, its answer, and what stands on standard error where it ends the session."""

    def __init__(self, line):
        self.line, self.answer, self.told = line.removeprefix(INLINE), b"", b""
        self.is_inline = line.startswith(INLINE)


class Session:
    """A session's name and its lines of input, with what is to be written; or a text of lines alone."""

    def __init__(self, name, text=None, words=(), files=()):
        self.name, self.exchanges, self.latest, self.times, self.words, self.files = name, [], 0, 1, words, dict(files)
        if text is not None:
            self.text = text

    def add_plain(self, line):
        """Reads one more line of a session in which each line stands for itself."""
        is_marked = line[:2] in (b"> ", b"! ", b"# ", b"$ ", b"% ", b">")
        mark, text = (line[:1], line[2:]) if is_marked else (b"<", line)
        self.add(mark + b" " + (text if mark == b"%" else text.replace(b"\\", b"\\\\")))

    def add(self, line):
        """Reads one more line of a session's text, whose first byte says what it is."""
        mark, text = line[:1], unescaped(line[2:])
        if line[1:2] not in (b" ", b"") or mark not in b"><!@#$%":
            raise ValueError(f"{self.name}: a line begins with none of '= ', '> ', '< ', '! ', '@ ', '$ ', '% ', '# '")
        if mark == b">":
            has_end = not line.endswith(b"\\") or line.endswith(b"\\\\")
            self.exchanges += [Exchange(text + b"\n" if has_end else text[:-1]) for _ in range(self.times)]
            self.latest, self.times = self.times, 1
        elif mark == b"<":
            for it in self.exchanges[-self.latest :]:
                it.answer += text + b"\n"
        elif mark == b"!":
            self.exchanges[-1].told = text + b"\n"
        elif mark == b"@":
            self.times = int(text)
        elif mark == b"$":
            self.words = text.decode().split(" ")
        elif mark == b"%":
            name, _, held = text.partition(b" ")
            if b"/" in name:
                raise ValueError(f"{self.name}: a file stands in the folder itself")
            self.files[name.decode()] = held

    @functools.cached_property
    def text(self):
        return b"".join(it.line for it in self.exchanges)

    def in_place(self, text):
        """What is run in place of this session: the same, with another text."""
        found = copy.copy(self)
        found.text = text
        return found

    def outcome(self, brought=None, has_ended=True):
        """The answers, standard error and the status where reads brought so many bytes, and either the end or a
        fault."""
        brought, answers = len(self.text) if brought is None else brought, b""
        for it in self.exchanges:
            brought -= len(it.line)
            if brought < 0 or not (has_ended or it.line.endswith(b"\n")):
                break
            answers += it.answer
            if it.told:
                return answers, it.told, 2
        return (answers, b"", 0) if has_ended else (answers, *READ_FAILED)

    def beginnings(self):
        """The answers to the first lines, for each count of lines."""
        return [*itertools.accumulate((it.answer for it in self.exchanges), initial=b"")]


def unescaped(text):
    def byte(found):
        code, repeated, times, slash = found.groups()
        return bytes([int(code, 16)]) if code else slash or repeated * int(times)

    return ESCAPE.sub(byte, text)


def sessions_of(program):
    """The sessions of all files in the program's folder."""
    found, folder = [], "rust/shell" if program == "trie_shell" else f"crates/{program}"
    for kind in ("sessions", "runs"):
        for path in sorted(pathlib.Path(ROOT, folder, kind).glob("*")):
            found += [Session(path.name)] if kind == "runs" else []
            for line in filter(None, path.read_bytes().split(b"\n")):
                if line.startswith(b"= "):
                    title = line[2:].decode()
                    found.append(Session(f"{path.name}: {title}" if kind == "runs" else title))
                elif kind == "runs":
                    found[-1].add_plain(line)
                else:
                    found[-1].add(line)
    return [it for it in found if it.exchanges]


def unlike(lines, answers, said):
    """The first wrong one of the answers to these lines, each of which is a list of lines or equals one, or nothing."""
    at = 0
    for number, (line, answer) in enumerate(zip(lines, answers), 1):
        came = said[at : at + len(answer)]
        at += len(answer)
        if answer != came:
            rows = itertools.zip_longest(answer, came) if isinstance(answer, list) else [(answer, came)]
            one, other = next(it for it in rows if it[0] != it[1])
            return f"line {number}, {line!r:.200}: wanted {one!r:.200}, came {other!r:.200}"
    return f"{said[at]!r:.200} came behind all answers" if at < len(said) else ""


def least(lines, fault, kept=0):
    """Says which of the lines still fail without the others: these go many at a time, and at last one by one, but for
    so many first ones."""
    size, end = len(lines) // 2, time.monotonic() + SECONDS
    while size:
        for place in range(len(lines) - size, kept - 1, -size):
            rest = [*lines[:place], *lines[place + size :]]
            lines = rest if time.monotonic() < end and fault(rest) else lines
        size //= 2
    return "; without its other lines:\n" + "".join(f"{it}\n" for it in lines)


def calls_of(line, place):
    """The library's calls that a line of trie_shell makes, in the view that is open, or in the trie."""
    name, _, rest = line.partition(" ")
    if name == "into_trie":
        return calls_of(rest, "Trie")
    if name == "spend":
        return [it.removeprefix("&") for it in calls_of(rest, "SubTrieMut")]
    finds = ((re.fullmatch(f"(?:{pattern})(?: .*)?", line), calls) for pattern, calls in CALLS)
    text = next(found.expand(calls) for found, calls in finds if found).replace("PLACE", place)
    inner = rest.partition(" ")[2].split(" ; ") if name in ("with", "with_subtrie_mut") else []
    return [*filter(None, text.split(" + ")), *(it for call in inner for it in calls_of(call, "SubTrieMut"))]


def route_calls(session):
    """Each exchange of a session of route_tool, and the library's calls in it."""
    for it in session.exchanges:
        yield it, ROUTE_CALLS.get(it.line.decode(errors="replace").partition(" ")[0].strip(), "").split(" + ")


def shell_calls(session):
    """Each exchange of a session of trie_shell, and the library's calls in it."""
    places = ["Trie"]
    for it in session.exchanges:
        line = it.line.decode(errors="replace").rstrip("\n")
        yield it, calls_of(line, places[-1])
        name, *rest = line.split(" ")
        if name in ("open", "open_mut", "subtrie_mut") and b" " in it.answer.replace(b"no key", b""):
            places.append("SubTrie" if name == "open" else "SubTrieMut")
        elif name == "close":
            places = places[:-1] or places
        elif name == "use" or name in ("begin", "keys") and rest and it.answer == b"ok\n":
            places = ["Trie"]
