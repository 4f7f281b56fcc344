"""Images, written by their format alone (docs/IMAGES.md), for the checks of what reads and writes them."""
import bisect
import struct

ROWS, SPANS, PAYLOAD, MAP, CELLS = 1, 2, 3, 4, 5


def image_of(mark, count, parts):
    """An image of parts: each a kind, a detail and bytes."""
    place = 16 + 24 * len(parts)
    head = mark + struct.pack("<II", count, len(parts))
    for kind, detail, part in parts:
        head += struct.pack("<IIQQ", kind, detail, place, len(part))
        place += len(part)
    return head + b"".join(part for *_, part in parts)


def links(items, is_around):
    """For each of some items in order, the index and one more of the last earlier one around it, or 0."""
    found, open_ones = [], []
    for at, item in enumerate(items):
        while open_ones and not is_around(items[open_ones[-1]], item):
            open_ones.pop()
        found.append(open_ones[-1] + 1 if open_ones else 0)
        open_ones.append(at)
    return found


def spans_of(networks, up, width):
    """The fewest spans of addresses with one answer each: their first addresses, and the index and one more of the longest
    of some networks in order that holds each of a span's addresses, or 0."""
    firsts = [int(it.network_address) for it in networks]
    ends = [first + it.num_addresses for first, it in zip(firsts, networks)]
    spans = []
    for address in sorted({0, *firsts, *ends} - {2**width}):
        answer = bisect.bisect_right(firsts, address)
        while answer and ends[answer - 1] <= address:
            answer = up[answer - 1]
        if not spans or spans[-1][1] != answer:
            spans.append((address, answer))
    return spans


def cells_of(networks, starts):
    """How many bits of an address, counted from the first network's on, come behind those that a cell is of, and the
    cells."""
    if not 256 <= len(networks) < 2**31:
        return 0, b""
    bits, low = min(len(networks).bit_length() - 2, 21), int(networks[0].network_address)
    reach = max(0, starts[-1] - low)
    rest = max(0, reach.bit_length() - bits)
    places = range(low, low + min((reach >> rest) + 1, 2**bits) * 2**rest, 2**rest)
    return rest, b"".join(struct.pack("<I", bisect.bisect_right(starts, it) - 1) for it in places)


def routes_image(routes, payload=b"", is_wide=None):
    """The image of a table of one family: networks and their values, in any order."""
    each = sorted(routes, key=lambda it: (int(it[0].network_address), it[0].prefixlen))
    networks = [network for network, _ in each]
    is_wide = networks[0].version == 6 if networks else is_wide
    up, rows = links(networks, lambda one, other: one.supernet_of(other)), b""
    for (network, value), link in zip(each, up):
        first = int(network.network_address)
        rows += (struct.pack("<QQIIQ", first % 2**64, first >> 64, network.prefixlen, link, value) if is_wide
                 else struct.pack("<IIII", first, network.prefixlen, link, value))
    # Where no network has more than 64 bits, spans begin at addresses of which the upper halves tell.
    width, size = (128, 8 if all(it.prefixlen <= 64 for it in networks) else 16) if is_wide else (32, 4)
    spans = spans_of(networks, up, width)
    starts = b"".join((start >> (64 if size == 8 else 0)).to_bytes(size, "little")
                      + struct.pack("<I", answer) for start, answer in spans)
    rest, cells = cells_of(networks, [start for start, _ in spans])
    mark = b"NZIPV6.2" if is_wide else b"NZIPV4.2"
    return image_of(mark, len(each), [(ROWS, 0, rows), (SPANS, size, starts), (CELLS, rest, cells), (PAYLOAD, 0, payload)])


def longest(routes, address):
    """The network of the most bits that holds an address, and its value, or None."""
    return max((it for it in routes if address in it[0]), key=lambda it: it[0].prefixlen, default=None)


def texts_image(items, payload=b""):
    """The image of a map from bytes to numbers."""
    each = sorted(items)
    keys, pairs, end = [key for key, _ in each], b"", 0
    for (key, value), link in zip(each, links(keys, lambda one, other: other.startswith(one))):
        end += len(key)
        pairs += struct.pack("<IIQ", end, link, value)
    heads = b"".join(key[:8].ljust(8, b"\0")[::-1] for key in keys)
    firsts = [int.from_bytes(key[:2].ljust(2, b"\0"), "big") for key in keys]
    counts = [bisect.bisect_left(firsts, it) for it in range(65_537)] if len(keys) >= 65_536 else []
    part = heads + pairs + struct.pack(f"<{len(counts)}I", *counts) + b"".join(keys)
    return image_of(b"NZTEXT.1", len(keys), [(MAP, len(counts), part), (PAYLOAD, 0, payload)])
