"""Writes the rule image vectors: crates/vectors_images/stdin and stdout. Run it in this folder."""

import random

from images import Random, random_date, sheet_image
from model import Refused, read_sheet

HEAD = """# Rule image vectors: an image, and what checking it must answer, as two u32: 0 and the count of rules, or the refusal's
# number and place. Made by vectors/make_images.py from the model in vectors/model.py, which reads bit by bit and was compared
# with the original's answers; none of the Rattle code had a part in it.
# In order: the inputs of docs/DECISIONS.md; every length of some images; every single bit of them turned; every field of a
# rule at its limits and past them; random sheets, and random ones damaged; the longest image, a byte less and a byte more.
"""

WORKED = """1040 10010009 1001000000100000 100100001000a0002004000000 10010000001109f000025821c3 10010000001109f000025821c300
10010000001109f000025821c000 100000 100001 00 10 1000 1001000010019000020000000067c010001680 10010000100190000aac0040002ab0000005a0
1001000100011fa47e800040005a00 100100000101d41040005a00 100100001001800009f0000000a10000005a00""".split()

EXAMPLE = bytes.fromhex('10010000001109f000025821c0')


def due(image):
    try:
        return 0, len(read_sheet(image))
    except Refused as r:
        return r.number, r.place


def longest():
    """32 rules of 8 items each, every item in its longest form: 50,960 bits."""
    nth = ('nth', 2024, 5, 3, -1)
    rule = {
        'operator': 1, 'kind': 2, 'comment': 255,
        'years': [(1900, 9999, 1)] * 8,
        'monthdays': [('dates', nth, -366, nth, 366)] * 8,
        'weeks': [(1, 53, 1)] * 8,
        'weekdays': [('days', 0, 6, 31, 31, 1)] * 8,
        'spans': [(('event', 0, -1440), ('event', 3, 1440))] * 8,
    }
    image, bits = sheet_image([rule] * 32)
    assert (len(image), bits) == (6370, 50960)
    return image


PLAIN = {'operator': 0, 'kind': 0, 'comment': 0, 'years': [], 'monthdays': [], 'weeks': [], 'weekdays': [], 'spans': []}


def one(**lists):
    return sheet_image([dict(PLAIN, **lists)])[0]


def fixed(year, month, day):
    return ('fixed', year, month, day)


def limits():
    """Each number of an item at its limits and just past them."""
    for v in (0, 1899, 1900, 9999, 10000, 16383):
        yield one(years=[(v, 2000, 1)])
        yield one(years=[(2000, v, 1)])
        yield one(years=[(2000, 2000, v)])
        yield one(monthdays=[('year months', v, 1, 12)])
        yield one(monthdays=[('dates', fixed(v, 1, 1), 0, ('easter', v), 0)])
        yield one(monthdays=[('dates', ('easter', 0), 0, ('nth', v, 1, 0, 1), 0)])
    for v in range(16):
        yield one(monthdays=[('months', v, 12)])
        yield one(monthdays=[('months', 1, v)])
        yield one(monthdays=[('year months', 2000, v, 1)])
        yield one(monthdays=[('year months', 2000, 1, v)])
        yield one(monthdays=[('dates', fixed(0, v, 1), 0, fixed(0, 1, 1), 0)])
        yield one(monthdays=[('dates', ('nth', 0, v, 0, 1), 0, fixed(0, 1, 1), 0)])
        yield one(monthdays=[('dates', ('nth', 0, 1, v % 8, 1), 0, ('nth', 0, 1, 0, v), 0)])
    for v in (0, 1, 31):
        yield one(monthdays=[('dates', fixed(0, 1, 1), 0, fixed(0, 1, v), 0)])
    for v in (0, 1, 366, 367, 511, -512, -367, -366, -1):
        yield one(monthdays=[('dates', fixed(0, 1, 1), v, fixed(0, 1, 1), 0)])
        yield one(monthdays=[('dates', fixed(0, 1, 1), 0, fixed(0, 1, 1), v)])
        yield one(weekdays=[('days', 0, 6, 31, 31, v)])
        yield one(weekdays=[('holiday', 0, v), ('holiday', 1, v)])
    for v in (0, 1, 53, 54, 63):
        for item in ((v, 1, 1), (1, v, 1), (1, 1, v)):
            yield one(weeks=[item])
    for v in range(8):
        yield one(weekdays=[('days', v, 0, 0, 0, 0)])
        yield one(weekdays=[('days', 0, v, 0, 0, 0)])
    for v in (0, 1440, 2880, 2881, 4095):
        yield one(spans=[(('fixed', v), ('fixed', 0))])
        yield one(spans=[(('fixed', 0), ('fixed', v))])
    for v in (0, 1440, 1441, 2047, -2048, -1441, -1440, -1):
        yield one(spans=[(('event', v % 4, v), ('fixed', 0))])
        yield one(spans=[(('fixed', 0), ('event', v % 4, v))])
    for v in range(4):
        yield one(operator=v)
        yield one(kind=v)
    for name, item in (('years', (2000, 2000, 1)), ('monthdays', ('months', 1, 1)), ('weeks', (1, 1, 1)),
                       ('weekdays', ('holiday', 0, 0)), ('spans', (('fixed', 0), ('fixed', 0)))):
        for n in (1, 7, 8, 9, 15):
            yield one(**{name: [item] * n})
    for n in (1, 31, 32, 33, 63):
        yield sheet_image([PLAIN] * n)[0]


def cuts_and_turns(image):
    for n in range(len(image) + 1):
        yield image[:n]
    for i in range(8 * len(image)):
        turned = bytearray(image)
        turned[i // 8] ^= 128 >> i % 8
        yield bytes(turned)


def damaged(rnd, image):
    way = rnd.randint(0, 3)
    if way == 0:
        return image[:rnd.randint(0, len(image))]
    if way == 1:
        return image + bytes(rnd.choice((0, rnd.randint(0, 255))) for _ in range(rnd.randint(1, 3)))
    hurt = bytearray(image)
    for _ in range(1 if way == 2 else rnd.randint(2, 6)):
        i = rnd.randint(0, 8 * len(hurt) - 1)
        hurt[i // 8] ^= 128 >> i % 8
    return bytes(hurt)


def all_images():
    rnd = random.Random(2)
    yield from map(bytes.fromhex, WORKED)
    yield b''
    yield from cuts_and_turns(EXAMPLE)
    for _ in range(3):
        image = sheet_image([Random(rnd, (2024, 5, 1)).rule(2)])[0]
        yield from cuts_and_turns(image)
    yield from limits()
    for _ in range(500):
        near = random_date(rnd)
        image = sheet_image(Random(rnd, near).sheet())[0]
        yield image
        yield damaged(rnd, image)
    yield from (bytes(rnd.randint(0, 255) for _ in range(rnd.randint(1, 40))) for _ in range(100))
    full = longest()
    yield full
    yield full[:-1]
    yield full + b'\0'
    for _ in range(4):
        yield damaged(rnd, full)


def main():
    images = list(all_images())
    with open('../crates/vectors_images/stdin', 'w') as out:
        out.write(HEAD)
        for image in images:
            number, value = due(image)
            out.write(f'{image.hex()} {number:08x}{value:08x}\n')
    with open('../crates/vectors_images/stdout', 'w') as out:
        out.write(f'vectors {len(images)} differences 0\n')


main()
