"""Writes the next change vectors: crates/vectors_changes/stdin and stdout. Run it in this folder."""

import random
import struct

from images import Random, random_date, sheet_image
from make_listings import WORKED, damaged, framed, islands
from model import Refused, next_change

HEAD = """# Next change vectors: a minute and a count of days as two u16 and then an input of the program shop_hours, and what the search
# must answer, as seven u32: refusal, place, year, month, day, minute, days examined. Year 0: no change; a refusal by 8 has
# its date. Made by vectors/make_changes.py from the model in vectors/model.py, which looks at every minute; none of the Rattle
# code had a part in it. In order: the images of docs/DECISIONS.md and the worked edges; crowded sheets; random ones; damaged ones.
"""

ALWAYS = '1001000000010000b400'
DAILY = '10010000000112c10e00'
NIGHTS = '10010000000125818600'


def parts(data):
    """The framed input's parts; damaged inputs are only used where they are still framed."""
    def take(at):
        size = data[at] * 256 + data[at + 1]
        return data[at + 2:at + 2 + size], at + 2 + size
    image, at = take(0)
    events = struct.unpack('>4H', data[at:at + 8])
    at += 8
    slots = []
    for _ in range(4):
        slot, at = take(at)
        slots.append(slot)
    return image, list(events), slots, struct.unpack('>3H', data[at:at + 6])


def due(data, minute, days):
    image, events, slots, d = parts(data)
    try:
        found, t, examined = next_change(image, events, slots, d, minute, days)
    except Refused as r:
        return (r.number, r.place) + (tuple(r.at) if r.number == 8 else (0, 0, 0)) + (0, 0)
    return (0, 0) + (tuple(found) if found else (0, 0, 0)) + (t, examined)


def worked():
    for line in WORKED.split('\n'):
        for day in line.split()[1:]:
            yield framed(bytes.fromhex(line.split()[0]), tuple(int(x) for x in day.split('-'))), 0, 30
    for image in (ALWAYS, DAILY, NIGHTS):
        for d in ((9999, 12, 30), (9999, 12, 31), (10000, 1, 1), (1899, 12, 30), (1, 1, 1), (2024, 5, 1), (2024, 2, 30), (12000, 12, 31)):
            for minute in (0, 599, 600, 1079, 1080, 1199, 1200, 1439, 1440, 65535):
                for days in (1, 10):
                    yield framed(bytes.fromhex(image), d), minute, days
    for days in (0, 1, 365, 366, 367, 3660, 3661, 65535):
        yield framed(bytes.fromhex(ALWAYS)), 0, days
        yield framed(bytes.fromhex('1001000010019000020000000067c010001680'), (2024, 1, 2)), 0, days


def later_crowd(weekday):
    """Nine rules of islands on one weekday only: that day is refused by 8, the others are closed."""
    sheet = islands(9, 1)
    for rule in sheet:
        rule['weekdays'] = [('days', weekday, weekday, 31, 31, 0)]
    return sheet


def crowds():
    daily = {'operator': 1, 'kind': 0, 'comment': 0, 'years': [], 'monthdays': [], 'weeks': [], 'weekdays': [],
             'spans': [(('fixed', 600), ('fixed', 1080))]}
    for weekday in range(7):
        for sheet in (later_crowd(weekday), later_crowd(weekday) + [daily]):
            for minute, days in ((0, 1), (0, 7), (700, 2), (1200, 7)):
                yield framed(sheet_image(sheet)[0]), minute, days


def random_ones(rnd, count):
    for _ in range(count):
        d = random_date(rnd)
        draw = Random(rnd, d)
        data = framed(sheet_image(draw.sheet(4))[0], d, draw.events(), [draw.holidays(slot) for slot in range(4)])
        yield data, rnd.randint(0, 1439), rnd.choice((1, 2, 7, 30))


def hurt_ones(rnd, count):
    for data, minute, days in random_ones(rnd, count):
        image, events, slots, d = parts(data)
        d = rnd.choice((d, (d[0], d[1], 0), (d[0], 13, 1), (0, 1, 1), (12001, 1, 1)))
        image = rnd.choice((image, damaged(rnd, image)))
        slots = [rnd.choice((s, s, damaged(rnd, s) if s else s)) for s in slots]
        yield framed(image, d, events, slots), minute, days


def main():
    rnd = random.Random(7)
    asked = list(worked()) + list(crowds()) + list(random_ones(rnd, 300)) + list(hurt_ones(rnd, 200))
    with open('../crates/vectors_changes/stdin', 'w') as out:
        out.write(HEAD)
        for data, minute, days in asked:
            answer = struct.pack('>7I', *due(data, minute, days))
            out.write(f'{struct.pack(">2H", minute, days).hex()}{data.hex()} {answer.hex()}\n')
    with open('../crates/vectors_changes/stdout', 'w') as out:
        out.write(f'vectors {len(asked)} differences 0\n')


if __name__ == "__main__":
    main()
