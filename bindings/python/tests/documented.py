"""Compares the readers that docs/IMAGES.md has in Python, taken from that page, with the package."""
import os
import random
import re

from nifazombi import Routes, Texts
from tables import drawn, near

PAGE = f"{os.path.dirname(os.path.realpath(__file__))}/../../../docs/IMAGES.md"


def readers():
    """What the page's blocks of Python define."""
    with open(PAGE, encoding="utf-8") as page:
        blocks = re.findall(r"^```python\n(.*?)^```$", page.read(), re.M | re.S)
    defined = {}
    exec("".join(blocks), defined)
    return defined["reader"], defined["texts"]


def try_routes(reader, version, most):
    """All networks of a table with cells, and few of them, which have none."""
    found = drawn(version, most)
    for networks in (found, dict([*found.items()][:9])):
        image = Routes.build(networks)
        routes, look = [*Routes(image)], reader(image, version == 6)
        for address in near(version, [*networks]):
            at = look(int(address))
            assert Routes(image).longest_match(address) == (None if at is None else routes[at]), address


def try_texts(texts):
    keys = {"".join(random.choices("ab/", k=random.randrange(9))).encode() for _ in range(300)}
    image = Texts.build({key: at for at, key in enumerate(keys)})
    rank, nearest = texts(image)
    table, order = Texts(image), sorted(keys)
    for key in [*keys, *(key + b"a" for key in keys), b"", b"zz", b"\xff"]:
        assert rank(key) == sum(it < key for it in order) == table.rank(key), key
        found, at = table.nearest(key), nearest(key)
        assert (found and found[0]) == (None if at is None else order[at]), key


def main():
    if not __debug__:
        raise SystemExit("python -O checks nothing here")
    random.seed(1)
    reader, texts = readers()
    for version, most in ((4, 32), (6, 128), (6, 64)):
        try_routes(reader, version, most)
    try_texts(texts)


if __name__ == "__main__":
    main()
