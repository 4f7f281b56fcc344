"""Checks the package nifazombi against plain lists and against images written by their format alone: images.py in
tools/shared."""
import array
import contextlib
import ctypes
import gc
import ipaddress
import mmap
import os
import random
import tempfile
import threading
import time
from unittest import mock

import images
from nifazombi import ImageError, Route, Routes, Texts
from nifazombi._library import library

ROUTES, ASKED, HOSTILE = 400, 2_000, 3_000
FAMILIES = {4: (32, ipaddress.IPv4Address), 6: (128, ipaddress.IPv6Address)}


def drawn(version, most=128):
    """Networks of at most so many bits, near to one another, each with a number, in no order."""
    width, found = FAMILIES[version][0], {}
    while len(found) < ROUTES:
        number = random.getrandbits(width)
        if found and random.random() < 0.7:
            number = int(random.choice([*found]).network_address) ^ random.getrandbits(random.randrange(1, width))
        bits = random.randrange(min(width, most) + 1)
        network = ipaddress.ip_network((number >> (width - bits) << (width - bits), bits))
        if network.version == version:
            found[network] = random.getrandbits(32)
    return found


def near(version, networks):
    """Addresses at the borders of networks, and anywhere."""
    width, kind = FAMILIES[version]
    for _ in range(ASKED):
        network = random.choice(networks)
        at = random.choice((int(network.network_address), int(network.broadcast_address), random.getrandbits(width)))
        yield kind((at + random.randrange(-1, 2)) % 2**width)


def try_routes(version, most=128):
    found = drawn(version, most)
    image = Routes.build(found, payload=b"own bytes")
    assert image == Routes.build(found.items(), b"own bytes")
    assert image == images.routes_image(found.items(), b"own bytes"), "the image isn't by the format"
    routes, order = Routes(image), sorted(found, key=lambda it: (int(it.network_address), it.prefixlen))
    assert routes.version == version and routes.payload == b"own bytes" and len(routes) == len(order)
    assert [*routes] == [Route(it, found[it]) for it in order] == [*reversed(routes)][::-1]
    addresses = [*near(version, order)]
    longest = [images.longest(found.items(), it) for it in addresses]
    assert [routes.longest_match(it) for it in addresses] == [it and Route(*it) for it in longest]
    assert routes.longest_matches(addresses) == [it and it[1] for it in longest]
    packed = b"".join(it.packed for it in addresses)
    numbers = [array.array("I", map(int, addresses))] if version == 4 else []
    for many in (packed, bytearray(packed), memoryview(packed), *numbers, *map(memoryview, numbers)):
        assert routes.longest_matches(many) == [it and it[1] for it in longest]
    assert Routes.build([], version=version) == images.routes_image([], is_wide=version == 6)
    few = [*found.items()][:255]
    assert Routes.build(few) == images.routes_image(few)
    empty = Routes(Routes.build([], version=version))
    assert [*empty] == routes.longest_matches([]) == [] and empty.longest_matches(addresses[:2]) == [None, None]
    assert [routes.longest_match_value(it, "none") for it in addresses] == [it[1] if it else "none" for it in longest]
    for address in addresses[:200]:
        around = [Route(it, found[it]) for it in order if address in it]
        assert routes.common_prefixes(address) == around
        assert [routes.above(it) for it in around] == [None, *around][:-1]
        alone = ipaddress.ip_network(address)
        assert routes.get(address, "none") == found.get(alone, "none") and (address in routes) == (alone in found)
        wider = alone.supernet(random.randrange(alone.prefixlen + 1))
        wide = [Route(it, found[it]) for it in order if wider.subnet_of(it)]
        assert routes.longest_around(wider) == (wide[-1] if wide else None)
        assert routes.longest_around(address) == (around[-1] if around else None)
    for network in order[:200]:
        assert routes[network] == routes.get(network) == routes.get(str(network)) == found[network]
        assert network in routes and str(network) in routes
        within = [it for it in order if it.subnet_of(network)]
        below = routes.below(network)
        assert [it.network for it in below] == within and [it.network for it in reversed(below)] == within[::-1]
        assert below[-1].network == within[-1] and len(below[1:]) == len(within) - 1 and below.index(below[0]) == 0


def try_merges(version, most=128):
    """Tables change as a map does that is edited by hand."""
    found, others = drawn(version, most), [*drawn(version, most).items()]
    routes = Routes(Routes.build(found, payload=b"old bytes"))
    for count in (0, 1, 2, 9, ROUTES):
        again = [(it, random.getrandbits(32)) for it in random.sample([*found], count)]
        changes = {network: random.choice((None, value)) for network, value in [*random.sample(others, count), *again]}
        after = dict(found)
        for network, value in changes.items():
            if value is None:
                after.pop(network, None)
            else:
                after[network] = value
        image = routes.merge(changes, payload=b"new"[:count])
        assert image == images.routes_image(after.items(), b"new"[:count], is_wide=version == 6)
        pairs = [(str(network), value) for network, value in changes.items()]
        assert image == routes.merge(random.sample(pairs, len(pairs)), memoryview(b"new")[:count])
        assert {it.network: it.value for it in Routes(image)} == after
    none = images.routes_image([], is_wide=version == 6)
    assert routes.merge(dict.fromkeys(found)) == none == Routes(none).merge(dict.fromkeys(found))
    assert Routes(none).merge(iter(found.items())) == images.routes_image(found.items())
    assert routes.payload == b"old bytes" and {it.network: it.value for it in routes} == found


def try_texts():
    found = {bytes(random.choices(b"ab\0\xff", k=random.randrange(20))): random.getrandbits(64) for _ in range(ROUTES)}
    image = Texts.build(found, payload=b"own")
    assert image == images.texts_image(found.items(), b"own"), "the image isn't by the format"
    texts, order = Texts(image), sorted(found)
    assert texts.payload == b"own"
    assert dict(texts) == found and [*texts] == order and len(texts) == len(order)
    for _ in range(ASKED):
        key = bytes(random.choices(b"ab\0\xff", k=random.randrange(20)))
        above = [it for it in reversed(order) if key.startswith(it)]
        assert [it for it, _ in texts.prefixes(key)] == above
        assert texts.nearest(key) == ((above[0], found[above[0]]) if above else None)
        assert texts.nth(Index()) == (order[0], found[order[0]])
        assert texts.get(key) == found.get(key) and (key in texts) == (key in found)
        assert texts.rank(key) == sum(it < key for it in order)
        assert [it for it, _ in texts.items(key[:3])] == [it for it in order if it.startswith(key[:3])]
        other = bytes(random.choices(b"ab\0\xff", k=random.randrange(20)))
        assert [it for it, _ in texts.between(key, other)] == [it for it in order if key <= it < other]


def refused(call, error, said):
    try:
        call()
    except error as told:
        assert said in str(told), told
    else:
        raise AssertionError(f"not refused: {said}")


def try_refusals():
    image = Routes.build([("10.0.0.0/8", 1), ("10.1.0.0/16", 2)])
    wide = Routes.build([("fe80::1", 1)])
    older, later, gone, turned, other = (bytearray(image) for _ in range(5))
    older[7:8], later[7:8], gone[40:44], other[156:160] = b"1", b"3", b"\t\0\0\0", bytes(4)
    turned[112:128], turned[128:144] = image[128:144], image[112:128]
    for wrong, why in ((b"", "too short"), (image[:-1], "part "), (b"x" * 200, "another kind"), (older, "another version"),
                       (later, "another version"), (gone, "part 1"), (turned, "row 0"), (other, "span 1")):
        refused(lambda wrong=wrong: Routes(bytes(wrong)), ImageError, why)
    refused(lambda: Texts(image), ImageError, "another kind")
    refused(lambda: Routes.build([("10.0.0.0/8", 1), ("10.0.0.0/8", 2)]), ValueError, "10.0.0.0/8 is there twice")
    refused(lambda: Routes.build([("10.0.0.0/8", 1), ("::/0", 2)]), ValueError, "one family")
    refused(lambda: Routes.build([("10.0.0.0/8", 1 << 32)]), ValueError, "doesn't fit")
    refused(lambda: Routes.build([("10.0.0.0/8", 1)], version=6), ValueError, "one family")
    refused(lambda: Routes.build([], version=5), ValueError, "no IPv5")
    refused(lambda: Routes.build([("10.0.0.0/8", 1.5)]), TypeError, "integer")
    refused(lambda: Routes.build([("10.0.0.1/8", 1)]), ValueError, "host bits")
    routes, net = Routes(image), "10.0.0.0/8"
    for changes, error, why in (
            ([(net, 1), ("9.0.0.0/8", 2), (net, None)], ValueError, f"{net} is there twice"),
            ([("::/0", None)], ValueError, "one family"), ([("10.0.0.1/8", None)], ValueError, "host bits"),
            ({net: 1 << 32}, ValueError, "doesn't fit into 32 bits"), ({net: -1}, ValueError, "doesn't fit"),
            ({net: 1.5}, TypeError, "integer"), ({"10.0.0.0/33": 1}, ValueError, "10.0.0.0/33")):
        refused(lambda changes=changes: routes.merge(changes), error, why)
    refused(lambda: routes.merge({}, payload="own"), TypeError, "bytes-like")
    refused(lambda: Routes(wide).merge({net: 1}), ValueError, "one family")
    refused(lambda: Routes(wide).merge({"fe80::1%eth0": 1}), ValueError, "fe80::1%eth0 has a scope")
    refused(lambda: Routes(wide).merge({"::/0": 1 << 64}), ValueError, "doesn't fit into 64 bits")
    refused(lambda: Routes(bytes(turned)).merge({net: 1}), ImageError, "row 0")
    routes.close()
    refused(lambda: routes.merge({}), ValueError, "closed")
    refused(lambda: Texts.build([("a", 1), (b"a", 2)]), ValueError, "b'a' is there twice")
    refused(lambda: Texts.build({"a": -1}), ValueError, "b'a' doesn't fit into 64 bits")
    refused(lambda: Texts.build({5: 1}), TypeError, "bytes-like")
    refused(lambda: Texts(Texts.build({}))[5], TypeError, "bytes-like")
    refused(lambda: Texts.build({}, payload="own"), TypeError, "bytes-like")
    for network in ("10.0.0.0/9", "10.1.0.0", "10.1.2.3"):
        refused(lambda network=network: Routes(image)[network], KeyError, network)
        assert network not in Routes(image) and Routes(image).get(network) is None
    refused(lambda: Routes(image).above(Route(ipaddress.ip_network("10.0.0.0/9"), 1)), KeyError, "10.0.0.0/9")
    refused(lambda: Routes(image).get("10.1.2.3/16"), ValueError, "host bits")
    refused(lambda: Routes(image).longest_match("::1"), ValueError, "no address of IPv4")
    for index in (1.5, "1", None):
        refused(lambda index=index: Texts(Texts.build({"a": 1})).nth(index), TypeError, "integer")
    for address in ("fe80::1%eth0", ipaddress.ip_address("fe80::1%eth0"), ipaddress.ip_network("fe80::1%eth0/128")):
        refused(lambda address=address: Routes.build([(address, 1)]), ValueError, "fe80::1%eth0 has a scope")
        refused(lambda address=address: Routes(wide).get(address), ValueError, "fe80::1%eth0 has a scope")
    refused(lambda: Routes(wide).longest_match_value("fe80::1%eth0"), ValueError, "no address of IPv6")
    refused(lambda: Routes(wide).longest_match_value(ipaddress.ip_address("fe80::1%eth0")), ValueError, "has a scope")
    for index in (1, -1, 1 << 64):
        refused(lambda index=index: Texts(Texts.build({"a": 1})).nth(index), IndexError, str(index))
    refused(lambda: Routes(image).longest_matches(array.array("i", [-1])), ValueError, "-1")
    refused(lambda: Routes(Routes.build([], version=6)).longest_matches(bytes(17)), ValueError, "16 bytes")
    refused(lambda: Routes.open("/nowhere/table"), FileNotFoundError, "nowhere")


def try_payload():
    """Where the user's own bytes are is asked once."""
    for table in (Texts(Texts.build({"a": 1}, payload=b"own")), Routes(Routes.build([], payload=b"own"), check=False)):
        with mock.patch.object(library, "nifazombi_payload", wraps=library.nifazombi_payload) as asked:
            assert [bytes(table.payload[:at]) for at in range(4)] == [b"", b"o", b"ow", b"own"]
        assert asked.call_count == 1 and table.payload.readonly


def try_memory(room):
    """Memory of every kind is taken, and a table makes no type of its own, as ctypes does of arrays."""
    image, path = Texts.build({"a": 1, "": 2}, payload=b"own"), f"{room}/texts"
    gc.collect()
    gc.disable()
    kinds = len(ctypes.Array.__subclasses__())
    for at in range(100):
        Texts.write(path, {"a": 1, **{f"{it}": it for it in range(at)}}, payload=bytes(at))
        with Texts.open(path) as texts:
            assert texts.get("a") == 1 and len(texts) == at + 1
    assert len(ctypes.Array.__subclasses__()) == kinds
    gc.enable()
    with open(path, "wb") as file:
        file.write(image)
    with open(path, "r+b") as file:
        maps = [mmap.mmap(file.fileno(), 0, access=it) for it in (mmap.ACCESS_READ, mmap.ACCESS_WRITE, mmap.ACCESS_COPY)]
    for memory in (image, bytearray(image), memoryview(image), array.array("b", image), *maps):
        with Texts(memory) as texts:
            assert texts["a"] == 1 and texts.payload == b"own" and texts.payload.readonly
    for it in maps:
        it.close()


class Index:
    def __index__(self):
        return 0


def try_files(room):
    path = f"{room}/table"
    Routes.write(path, [("10.0.0.0/8", 1)])
    with Routes.open(path) as old:
        Routes.write(path, [("10.0.0.0/8", 2)], payload=b"new")
        with Routes.open(path) as new:
            assert (old["10.0.0.0/8"], new["10.0.0.0/8"], new.payload) == (1, 2, b"new")
    for call in (len, list, lambda it: it.longest_match("10.1.1.1"), lambda it: it.payload):
        refused(lambda call=call: call(old), ValueError, "closed")
    refused(lambda: Routes.write(path, [("10.0.0.0/8", -1)]), ValueError, "doesn't fit")
    assert os.listdir(room) == ["table"] and Routes.open(path)["10.0.0.0/8"] == 2
    Routes.write(os.fsencode(path), [("10.0.0.0/8", 3)])
    with open(path, "rb") as file:
        own = mmap.mmap(file.fileno(), 0, access=mmap.ACCESS_COPY)
    with Routes(own) as routes:
        assert routes["10.0.0.0/8"] == 3
    own.close()
    open(f"{room}/none", "w").close()
    refused(lambda: Texts.open(f"{room}/none"), ImageError, "too short")


def try_close(room):
    """Whoever reads a table while it is closed reads on, or is refused: its file stays mapped until the call ends."""
    asked = array.array("I", range(0x0A000000, 0x0B000000, 16))
    Routes.write(f"{room}/table", [(f"10.{at}.0.0/16", at) for at in range(256)], payload=bytes(1 << 20))

    def read():
        with contextlib.suppress(ValueError):
            routes.longest_matches(asked)

    for delay in range(5):
        routes, reader = Routes.open(f"{room}/table"), threading.Thread(target=read)
        reader.start()
        time.sleep(delay / 1000)
        routes.close()
        reader.join()
    routes = Routes.open(f"{room}/table")
    own = routes.payload
    routes.close()
    assert own == bytes(1 << 20) and own.readonly


def try_hostile():
    """Unchecked bytes answer something, and end."""
    wide, texts = Routes.build(drawn(6).items()), Texts.build({"a": 1, "ab": 2, "abc": 3, "b": 4})
    for _ in range(HOSTILE):
        for image, kind in ((wide, Routes), (texts, Texts)):
            wrong = bytearray(image)
            for _ in range(random.randrange(1, 6)):
                wrong[random.randrange(8, min(len(wrong), random.choice((130, len(wrong)))))] = random.randrange(256)
            table = kind(bytes(wrong[: random.choice((len(wrong), random.randrange(len(wrong))))] or b"N"), check=False)
            if kind is Texts:
                table.get("ab"), table.nearest("abcd"), table.rank("b"), [*zip(range(9), table.prefixes("abc"))]
            elif table.version == 6:
                address = ipaddress.IPv6Address(random.getrandbits(128))
                table._family.calls.longest_match(table._at, table._len, table._family.passed(address))
                assert Routes(table.merge({"::/1": 5, "::/2": None})).get("::/1") == 5


def main():
    if not __debug__:
        raise SystemExit("python -O checks nothing here")
    random.seed(1)
    try_routes(4)
    try_routes(6)
    try_routes(6, 64)
    for version, most in ((4, 32), (6, 128), (6, 64)):
        try_merges(version, most)
    try_texts()
    try_refusals()
    try_payload()
    with tempfile.TemporaryDirectory() as room:
        try_files(room)
    with tempfile.TemporaryDirectory() as room:
        try_memory(room)
        try_close(room)
    try_hostile()


if __name__ == "__main__":
    main()
