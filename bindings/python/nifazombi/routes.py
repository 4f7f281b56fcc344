"""Routing tables: networks of one family, each with a number."""
import array
import ipaddress
import socket
import struct
import types
import typing

from . import _exports as exports
from ._library import library
from ._table import REASONS, ImageError, Items, Pairs, Table, built, items_of, number_of, pairs_of

Address = typing.Union[str, int, bytes, ipaddress.IPv4Address, ipaddress.IPv6Address]
Network = typing.Union[str, ipaddress.IPv4Network, ipaddress.IPv6Network]
Change = typing.Tuple[Network, typing.Optional[int]]


class Route(typing.NamedTuple):
    """A network, and its value."""

    network: typing.Union[ipaddress.IPv4Network, ipaddress.IPv6Network]
    value: int


def _read(family, text):
    """The packed bytes of an address by its text, which the C library reads faster than `ipaddress` does."""
    try:
        return socket.inet_pton(family, text)
    except (OSError, ValueError):
        raise ValueError(f"{text!r} is no address of IPv{4 if family == socket.AF_INET else 6}") from None


def _calls(start):
    """The exports whose names start so, by the rest of the names, which both families have."""
    names = [name for name, *_ in exports.EXPORTS if name.startswith(start)]
    return types.SimpleNamespace(**{name[len(start):]: getattr(library, name) for name in names})


class _Ipv4:
    version, network, row, width = 4, ipaddress.IPv4Network, exports.Ipv4Row, 32
    calls, rows, values, value_bits = _calls("nifazombi_ipv4_"), struct.Struct("=IIII"), "I", 32
    changes = struct.Struct("=16sI")  # a row, and whether its network goes

    @staticmethod
    def passed(address):
        """An address as the library takes it."""
        if isinstance(address, str):
            return int.from_bytes(_read(socket.AF_INET, address), "big")
        return address if type(address) is int and 0 <= address < 1 << 32 else int(ipaddress.IPv4Address(address))

    @staticmethod
    def many(addresses):
        """Addresses as the library takes many of them."""
        is_lent = isinstance(addresses, (bytes, bytearray, memoryview, array.array))
        kept_as = memoryview(addresses).format if is_lent else ""
        if kept_as == "B":
            addresses = array.array("I", bytes(addresses))
            addresses.byteswap()
        elif kept_as != "I":
            addresses = array.array("I", map(_Ipv4.passed, addresses))
        return memoryview(addresses).tobytes()

    @staticmethod
    def packed(network, value):
        return _Ipv4.rows.pack(int(network.network_address), network.prefixlen, 0, value)

    @staticmethod
    def first(row):
        return row.first


class _Ipv6:
    version, network, row, width = 6, ipaddress.IPv6Network, exports.Ipv6Row, 128
    calls, rows, values, value_bits = _calls("nifazombi_ipv6_"), struct.Struct("=16sIIQ"), "Q", 64
    changes = struct.Struct("=32sI4x")

    @staticmethod
    def passed(address):
        if isinstance(address, str):
            return _read(socket.AF_INET6, address)
        address = address if type(address) is ipaddress.IPv6Address else ipaddress.IPv6Address(address)
        if address.scope_id:
            raise ValueError(f"{address} has a scope, and a table knows none")
        return address.packed

    @staticmethod
    def many(addresses):
        if not isinstance(addresses, (bytes, bytearray, memoryview)):
            addresses = b"".join(map(_Ipv6.passed, addresses))
        packed = bytes(addresses)
        if len(packed) % 16:
            raise ValueError("packed addresses of IPv6 have 16 bytes each")
        return packed

    @staticmethod
    def packed(network, value):
        return _Ipv6.rows.pack(_Ipv6.passed(network.network_address), network.prefixlen, 0, value)

    @staticmethod
    def first(row):
        return bytes(row.first)


def _in_order(pairs, version):
    """Pairs of a network and anything else in order, and the family of the networks: of this version, or without one of
    the first one's."""
    each = [(ipaddress.ip_network(network), value) for network, value in pairs_of(pairs)]
    version = version or (each[0][0].version if each else 4)
    if version not in (4, 6):
        raise ValueError(f"there is no IPv{version}")
    if any(network.version != version for network, _ in each):
        raise ValueError("the networks aren't of one family")
    each.sort(key=lambda it: (int(it[0].network_address), it[0].prefixlen))
    return each, _Ipv4 if version == 4 else _Ipv6


class Routes(Table):
    """A routing table of one family: `longest_match(address)` is the route of the longest network that holds an
    address, and `routes[network]` the value of one very network.

    An address is a text, a number, its packed bytes, or one of `ipaddress`; where a network is asked for, it is the
    network of it alone. Iteration gives the routes in order, and `version` is 4 or 6.
    """

    def __init__(self, image, check: bool = True):
        self._family = _Ipv6 if memoryview(image).cast("B")[:6] == b"NZIPV6" else _Ipv4
        self._check = self._family.calls.check
        self.version = self._family.version
        super().__init__(image, check)

    @classmethod
    def build(cls, routes: Pairs[Network], payload=b"", version: typing.Optional[int] = None) -> bytes:
        """An image of pairs of a network and a value, or of a mapping, in any order, all of one family, and of bytes of
        one's own. A network is a text or one of `ipaddress`. `version` says of which family the networks have to be:
        without it that is the first one's, and IPv4 where there is none. Raises ValueError where a network comes
        twice."""
        each, family = _in_order(routes, version)
        rows = b"".join(family.packed(network, number_of(network, value, family.value_bits)) for network, value in each)
        return built(lambda own: family.calls.image_len(len(each), own), family.calls.write, rows, each, payload,
                     is_at_most=True)

    def merge(self, changes: typing.Union[typing.Mapping[Network, typing.Optional[int]], typing.Iterable[Change]],
              payload=b"") -> bytes:
        """The image of the table after changes, with bytes of one's own in place of those that it has. The changes are
        pairs of a network and its value from now on, or None where the network goes, whether it is there or not; or a
        mapping, in any order. Raises ValueError where a network comes twice, or is of the other family."""
        each, family = _in_order(changes, self.version)
        calls, table = family.calls, (self._at, self._len)

        def packed(network, value):
            number = 0 if value is None else number_of(network, value, family.value_bits)
            return family.changes.pack(family.packed(network, number), value is None)

        return built(lambda own: calls.merge_len(*table, len(each), own), lambda *passed: calls.merge(*table, *passed),
                     b"".join(packed(*it) for it in each), each, payload, is_at_most=True)

    def __len__(self) -> int:
        return self._family.calls.len(self._at, self._len)

    def _row(self, index):
        row = self._family.row()
        if not self._family.calls.row_at(self._at, self._len, index, row) or row.bits > self._family.width:
            raise ImageError("this is no image: " + REASONS[exports.ERROR_ROW].format(index))
        return row

    def _route(self, index):
        row = self._row(index)
        return Route(self._family.network((self._family.first(row), row.bits), strict=False), row.value)

    def _found(self, address):
        return self._family.calls.longest_match(self._at, self._len, self._family.passed(address))

    def longest_match(self, address: Address) -> typing.Optional[Route]:
        """The route of the longest network that holds an address, or None."""
        found = self._found(address)
        return self._route(found - 1) if found else None

    def longest_match_value(self, address: Address, default=None):
        """The value of the longest network that holds an address, or `default`."""
        found = self._found(address)
        return self._row(found - 1).value if found else default

    def longest_matches(self, addresses) -> typing.List[typing.Optional[int]]:
        """The values of many addresses, None where no network holds one. Addresses may also be packed bytes, one behind
        the other. Fastest of IPv4 as numbers in an `array('I')`, of IPv6 as packed bytes."""
        asked = self._family.many(addresses)
        count = 8 * len(asked) // self._family.width
        found = array.array("I", bytes(4 * count))
        values = array.array(self._family.values, bytes(self._family.value_bits // 8 * count))
        parts = (it for each in (found, values) for it in (each.buffer_info()[0], count))
        self._family.calls.longest_values(self._at, self._len, asked, count, *parts)
        return [value if it else None for it, value in zip(found, values)]

    def _network(self, network):
        """A network's first address and its bits, as the library takes them."""
        network = self._family.network(network)
        return self._family.passed(network.network_address), network.prefixlen

    def _stored(self, network):
        """The index and one more of the row of this very network, or 0."""
        return self._family.calls.get(self._at, self._len, *self._network(network))

    def get(self, network: Network, default=None):
        """The value of this very network, or `default`."""
        stored = self._stored(network)
        return self._row(stored - 1).value if stored else default

    def __getitem__(self, network: Network) -> int:
        stored = self._stored(network)
        if not stored:
            raise KeyError(network)
        return self._row(stored - 1).value

    def __contains__(self, network: Network) -> bool:
        return bool(self._stored(network))

    def longest_around(self, network: Network) -> typing.Optional[Route]:
        """The route of the longest network that holds all of a network, its own where there is one, or None."""
        found = self._family.calls.longest_around(self._at, self._len, *self._network(network))
        return self._route(found - 1) if found else None

    def common_prefixes(self, address: Address) -> typing.List[Route]:
        """The routes of all networks that hold an address, the shortest first."""
        return [*self._climb(self._found(address), self._family.calls.above, self._route)][::-1]

    def below(self, network: Network) -> Items:
        """The routes within a network, itself too, in order."""
        span = exports.Span()
        self._family.calls.below(self._at, self._len, *self._network(network), span)
        return items_of(self._route, span)

    def above(self, route: Route) -> typing.Optional[Route]:
        """The route of the longest other network around that of a route of this table, or None. Raises KeyError where
        no route is of that network."""
        stored = self._stored(route.network)
        if not stored:
            raise KeyError(route.network)
        found = self._family.calls.above(self._at, self._len, stored - 1)
        return self._route(found - 1) if found else None

    def __iter__(self) -> typing.Iterator[Route]:
        return iter(Items(self._route, range(len(self))))

    def __reversed__(self) -> typing.Iterator[Route]:
        return reversed(Items(self._route, range(len(self))))
