"""A routing table as a plain list, and random lines about it, for the checks of route_tool."""
import ipaddress
import random
from typing import NamedTuple

from shared import ROOT, built, check_use, need, ran, read_text

WIDTHS = {4: 32, 6: 128}
PROGRAM = built("route_tool")
NEVER = float("inf")
OTHER = "a hop that the block hasn't"
# What `help` answers: the lines of the constant text in the program's source.
HELP = read_text(f"{ROOT}/crates/route_tool/src/help.rt").partition('"\\\n')[2].partition('"')[0].splitlines()


def text_of_address(version, number):
    """As RFC 5952 has it; section 5 writes the last 32 bits of a mapped address with dots."""
    if version == 6 and number >> 32 == 0xFFFF:
        return f"::ffff:{ipaddress.IPv4Address(number & 0xFFFFFFFF)}"
    return str((ipaddress.IPv4Address if version == 4 else ipaddress.IPv6Address)(number))


class Network(NamedTuple):
    """The addresses of a family that agree in their first bits."""

    version: int
    base: int
    bits: int

    @property
    def rest(self):
        return WIDTHS[self.version] - self.bits

    def __str__(self):
        return f"{text_of_address(self.version, self.base)}/{self.bits}"


def network_at(version, number, bits):
    rest = WIDTHS[version] - bits
    return Network(version, number >> rest << rest, bits)


def network_of(text):
    read = ipaddress.ip_network(text)
    return Network(read.version, int(read.network_address), read.prefixlen)


class Table(dict):
    """Hops by their networks."""

    def rows(self, networks):
        return [str(len(networks)), *(f"{it} {self[it]}" for it in networks)]

    def longest(self, version, number):
        """The network of the most bits that holds the address, or nothing."""
        places = ((version, number >> rest << rest, WIDTHS[version] - rest) for rest in range(WIDTHS[version] + 1))
        return next((Network(*it) for it in places if it in self), None)

    def hop_at(self, version, number):
        return self.get(self.longest(version, number))

    def answer(self, line):
        """The lines of the answer."""
        word, text, hop = [*line.split(" ", 2), "", ""][:3]
        if word in ("", "#"):
            return []
        if word in ("len", "compact"):
            return [str(len(self))]
        if word == "aggregate":
            return Aggregate(self)
        if word == "list":
            return self.rows(sorted(self))
        if word == "dump":
            return [f"add {it} {self[it]}" for it in sorted(self)]
        if word == "help":
            return HELP
        network = network_of("0.0.0.0/0" if text == "default" else text)
        if word == "below":
            last = network.base + (1 << network.rest) - 1
            found = (it for it in self if it.version == network.version and it.bits >= network.bits)
            return self.rows(sorted(it for it in found if network.base <= it.base <= last))
        if word in ("look", "find"):
            found = self.longest(*network[:2])
            return ["none" if found is None else f"{found} {self[found]}" if word == "find" else self[found]]
        old = self.pop(network, None)
        if word == "del":
            return [old or "none"]
        self[network] = hop
        return [f"old {old}" if old else "new"]


def costs(rows, base, rest, above):
    """How many routes a block of addresses needs by what is given from above: a hop, None for nothing, or OTHER. The
    block's addresses differ in `rest` last bits, its networks and hops are in order, and where none of them holds an
    address its answer is `above`."""
    if rows and rows[0][0].rest == rest:
        above, rows = rows[0][1], rows[1:]
    if not rows:
        return {above: 0, OTHER: NEVER if above is None else 1}
    middle = base + (1 << rest - 1)
    low = costs([it for it in rows if it[0].base < middle], base, rest - 1, above)
    high = costs([it for it in rows if it[0].base >= middle], middle, rest - 1, above)
    both = {hop: low.get(hop, low[OTHER]) + high.get(hop, high[OTHER]) for hop in {*low, *high}}
    own = 1 + min(cost for hop, cost in both.items() if hop is not None)
    return {hop: min(cost, own) for hop, cost in both.items()}


class Aggregate:
    """The answer to `aggregate`: any list that is least."""

    def __init__(self, table):
        self.table, self.count = Table(table), 0
        for version, width in WIDTHS.items():
            found = costs(sorted(it for it in table.items() if it[0].version == version), 0, width, None)
            self.count += found.get(None, found[OTHER])

    def __len__(self):
        return 1 + self.count

    def __eq__(self, lines):
        rows = [line.split(" ", 1) for line in lines[1:]]
        networks = [network_of(text) for text, _ in rows]
        return (lines[:1] == [str(self.count)] and [str(it) for it in networks] == [text for text, _ in rows]
                and networks == sorted({*networks}) and self.is_alike(Table(zip(networks, (hop for _, hop in rows)))))

    def is_alike(self, other):
        """Whether both answer the same for the first address of each network and the first behind it: between these
        neither answer changes."""
        ends = {(it.version, end) for it in (*self.table, *other) for end in (it.base, it.base + (1 << it.rest))}
        ends = [it for it in (*ends, (4, 0), (6, 0)) if it[1] < 1 << WIDTHS[it[0]]]
        return all(self.table.hop_at(*it) == other.hop_at(*it) for it in ends)

    def __repr__(self):
        return f"a list of {self.count} routes with the same answers"


# The words that lines begin with, and how often each is drawn: where routes change often, and where they seldom do.
WORDS = ("add", "del", "look", "find", "below", "len", "list", "dump", "aggregate", "compact", "help", "#", "")
MIXED = (80, 24, 40, 30, 12, 6, 2, 2, 1, 2, 1, 4, 2)
SELDOM = (1, 1, 300, 200, 5, 2, 1, 1, 0, 1, 1, 1, 1)


class Lines(random.Random):
    """Random lines of a session."""

    # How many first bits of an address drawn before are kept at least.
    kept = 0

    def __init__(self, seed):
        super().__init__(seed)
        self.pool = []

    def fresh(self, version):
        return self.getrandbits(WIDTHS[version])

    def number(self, version):
        """An address, mostly one near to others that were drawn."""
        width, number = WIDTHS[version], self.fresh(version)
        near = [it for it in self.pool if it[0] == version]
        if near and self.random() < 0.8:
            rest = width - self.choice((self.randrange(self.kept, width + 1), width))
            number = self.choice(near)[1] >> rest << rest | number & (1 << rest) - 1
        self.pool = [*self.pool[-200:], (version, number)]
        return number

    def network(self):
        version = self.choice((4, 6))
        bits = self.choice((self.randrange(WIDTHS[version] + 1), WIDTHS[version], 8, 16, 24))
        return network_at(version, self.number(version), bits)

    def written(self, version, number):
        """One of the forms of an address."""
        if version == 4:
            return text_of_address(4, number)
        address = ipaddress.IPv6Address(number)
        dotted = f"{address.exploded[:30]}{ipaddress.IPv4Address(number & 0xFFFFFFFF)}"
        return self.choice((address.compressed, address.exploded, address.exploded.upper(), dotted))

    def text(self, network):
        if network == network_at(4, 0, 0) and self.random() < 0.5:
            return "default"
        text = self.written(*network[:2])
        return text if not network.rest and self.random() < 0.5 else f"{text}/{network.bits}"

    def hop(self):
        return self.choice(("a", "via 192.0.2.1", "é ü", "x" * self.randrange(1, 60), "#", "10.0.0.0/8"))

    def next(self, shares=MIXED):
        word = self.choices(WORDS, shares)[0]
        if word in ("look", "find"):
            version = self.choice((4, 6))
            return f"{word} {self.written(version, self.number(version))}"
        if word in ("add", "del", "below"):
            line = f"{word} {self.text(self.network())}"
            return f"{line} {self.hop()}" if word == "add" else line
        return f"# {self.hop()}" if word == "#" else word


def answers(lines, program=PROGRAM):
    """What route_tool answers to these lines, by lines, its text on standard error and its status."""
    said = ran([program], "".join(f"{it}\n" for it in lines).encode(), 120)
    return said.stdout.decode().splitlines(), said.stderr.decode(), said.returncode


def seed_of(words):
    """The seed that a script is started with, or 1. It needs the program."""
    check_use(len(words) <= 1 and all(it.isascii() and it.isdigit() for it in words))
    need("route_tool")
    return int(words[0]) if words else 1
