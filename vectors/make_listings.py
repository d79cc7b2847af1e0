"""Writes the listing vectors: crates/vectors_listings/stdin and stdout. Run it in this folder, with the path of a program
that answers as the original does (its `batch` command); the original's answers are recorded as they come."""

import random
import struct
import subprocess
import sys

from images import Random, holiday_image, random_date, sheet_image
from model import program

HEAD = """# Listing vectors: an input of the program shop_hours, and the text that it must write, both as bytes.
# Made by vectors/make_listings.py. First the inputs of docs/DECISIONS.md and the worked examples, then random ones and damaged
# ones, answered by the model in vectors/model.py, which lists minute by minute; from the second comment line on, random
# inputs answered by the original itself. None of the Rattle code had a part in it.
"""
BY_THE_ORIGINAL = "# from here on the answers are the original's\n"

NONE = [65535] * 4
MAY = (2024, 5, 1)


def framed(image, d=MAY, events=NONE, slots=(b'', b'', b'', b'')):
    parts = [struct.pack('>H', len(image)), image, struct.pack('>4H', *events)]
    for slot in slots:
        parts += [struct.pack('>H', len(slot)), slot]
    return b''.join(parts) + struct.pack('>3H', *d)


def may_day(slot):
    return holiday_image(2024, 1, slot >> 1, slot & 1, {MAY})


# rule images without holidays and events, each with the days that tell one reading from another
WORKED = """
10010000001109f000025821c0 2024-01-01 1899-12-31 10000-01-01 2024-05-04 2024-02-30 0-01-01 12001-01-01
1040 2024-05-01
10010009 2024-05-01
1001000000100000 2024-05-01
100100001000a0002004000000 2024-05-01
10010000001109f000025821c3 2024-05-01
10010000001109f000025821c300 2024-05-01
10010000001109f000025821c000 2024-05-01
100000 2024-05-01
100001 2024-05-01
00 2024-05-01
10 2024-05-01
1000 2024-05-01 1-01-01 12000-12-31 2024-13-01
1001000010019000020000000067c010001680 2024-01-01 2024-01-02 2025-01-01 1899-12-31 1900-01-01
10010000100190000aac0040002ab0000005a0 2024-05-01 2024-05-15
1001000100011fa47e800040005a00 2024-05-01 2025-05-01
100100000101d41040005a00 2021-01-01 2024-05-01
100100001001800009f0000000a10000005a00 2024-05-01 2024-04-30 2024-05-02
100100001001800005d00400005d0040005a00 2023-03-01 2024-03-01 2024-02-29
100100001001800019f5b800019f5b80005a00 2023-01-01 2024-12-31
100100001001800019f0010000200000001680 2024-05-01 1900-01-01 9999-12-31
100100001001800019f5b8000021a480005a00 2024-12-31 2024-05-01
10010000100147ea8800016800 2026-08-01 2026-08-02 2025-08-01
10010000100180001610008fd0410000005a00 2023-11-05 2024-11-05 2024-02-01 2024-02-02 2023-10-31
100100001001900004d40023f4984000001680 2024-06-01 2024-02-29 2025-03-01 2025-03-02 2024-02-28
100100001001800019f0008ed821ffc9606180 1900-01-01 1900-01-02
1001000010018ce1f9f0000000250000005a00 9999-12-31 9999-12-30
1001000000116df05240002d00 9999-12-31 9999-12-30
1001000000110c000000002d00 2024-05-01
10010000000130c00f00 2024-05-01
1001000000115bf00018000bb8 2024-09-22 2024-09-29
1002000000010001680000000000 2024-05-01
1001000000012ee60000 2024-06-01 2024-12-01
10020000001113f00004b030c500000008000b40 2024-05-01 2024-04-30
1003100000008000001113f00004b030c500000008000b40 2024-05-01
10020000001113f00004b030c400080008fa03e800020002d000 2024-05-01
10020000000112c10e0000000444fc00012c0c30 2024-05-01 2024-04-30
1001000000116df00004b030c0 1900-01-01 1899-12-31
10010000000125818600 10000-01-01 9999-12-31 2024-05-01
"""


def worked():
    for line in WORKED.split('\n'):
        for day in line.split()[1:]:
            yield framed(bytes.fromhex(line.split()[0]), tuple(int(x) for x in day.split('-')))
    yield from with_holidays()
    yield from with_events()
    yield from crowded()
    yield from frames()


def with_holidays():
    """Both images name the day; a weekday matches beside the holiday; a closed rule; slots, years and the order of refusals."""
    both = (may_day(0), may_day(1), b'', b'')
    unknown = (b'', may_day(1), b'', b'')
    school = (b'', b'', may_day(2), may_day(3))
    for image in ('1001000000118000001680', '10010000002125f00010000002d000', '1001100000118000001680'):
        for slots in (both, unknown, school):
            yield framed(bytes.fromhex(image), MAY, NONE, slots)
            yield framed(bytes.fromhex(image), (2024, 5, 2), NONE, slots)
    for image in ('000000', '9c3c00', '9c4000', '1fa001', '1fa002', '1fa000'):
        for slot in range(4):
            slots = [b''] * 4
            slots[slot] = bytes.fromhex(image)
            yield framed(bytes.fromhex('1000'), MAY, NONE, slots)
    yield framed(bytes.fromhex('1000'), MAY, [1440, 0, 0, 0], (b'\0', b'', b'', b''))
    yield framed(bytes.fromhex('1000'), MAY, [0, 1440, 65534, 0])
    yield framed(bytes.fromhex('1000'), (2024, 2, 30), [0, 1439, 65535, 1440])


def with_events():
    """Sunrise - 421 to 10:00; sunrise to sunset with one of them missing, on each side of summer's first and last day."""
    yield framed(bytes.fromhex('100100000001bcb62580'), (2024, 12, 1), [65535, 420, 65535, 65535])
    rule = {'operator': 0, 'kind': 0, 'comment': 0, 'years': [], 'monthdays': [], 'weeks': [], 'weekdays': [],
            'spans': [(('event', 1, 0), ('event', 2, 0))]}
    image = sheet_image([rule])[0]
    for d in ((2024, 3, 19), (2024, 3, 20), (2024, 9, 21), (2024, 9, 22)):
        for events in ([65535, 65535, 1140, 65535], [65535, 420, 65535, 65535], NONE):
            yield framed(image, d, events)


def islands(rules, last, operator=1, kind=0):
    """Eight ranges a rule, none touching another; the last rule has `last` of them."""
    sheet = []
    for i in range(rules):
        count = last if i == rules - 1 else 8
        spans = [(('fixed', 160 * k + 4 * i), ('fixed', 160 * k + 4 * i + 1)) for k in range(count)]
        sheet.append({'operator': operator, 'kind': kind, 'comment': 0, 'years': [], 'monthdays': [], 'weeks': [],
                      'weekdays': [], 'spans': spans})
    return sheet


def crowded():
    """64 ranges, 65, closed ones, a result that a later rule replaces, and one that joins again before it is judged."""
    yield framed(sheet_image(islands(8, 8))[0])
    yield framed(sheet_image(islands(9, 1))[0])
    yield framed(sheet_image(islands(8, 8, 1, 1))[0])
    yield framed(sheet_image(islands(9, 1, 1, 1))[0])
    full = {'operator': 0, 'kind': 0, 'comment': 0, 'years': [], 'monthdays': [], 'weeks': [], 'weekdays': [],
            'spans': [(('fixed', 0), ('fixed', 1440))]}
    yield framed(sheet_image(islands(9, 1) + [full])[0])
    last = [(('fixed', 0), ('fixed', 200)), (('fixed', 1300), ('fixed', 1301)), (('fixed', 1310), ('fixed', 1311))]
    yield framed(sheet_image(islands(8, 8) + [dict(full, operator=1, spans=last)])[0])


def frames():
    """Badly framed inputs, and the longest that is read."""
    example = framed(bytes.fromhex('10010000001109f000025821c0'), (2024, 1, 1))
    yield from (example[:n] for n in range(len(example)))
    yield example + b'\0'
    yield b'\xff\xff' + example[2:]


def random_input(rnd):
    d = random_date(rnd)
    draw = Random(rnd, d)
    image = sheet_image(draw.sheet())[0]
    return framed(image, d, draw.events(), [draw.holidays(slot) for slot in range(4)])


def damaged(rnd, data):
    hurt = bytearray(data)
    for _ in range(rnd.choice((1, 1, 2, 5))):
        i = rnd.randrange(8 * len(hurt))
        hurt[i // 8] ^= 128 >> i % 8
    return bytes(hurt)


def original(path, inputs):
    batch = b''.join(struct.pack('>I', len(i)) + i for i in inputs)
    done = subprocess.run([path, 'batch'], input=batch, stdout=subprocess.PIPE, check=True)
    answers = [a.lstrip('\n') for a in done.stdout.decode().split('--\n')]
    return answers[:len(inputs)]


def write(out, data, text):
    out.write(f'{data.hex()} {text.encode().hex()}\n')


def main():
    rnd = random.Random(6)
    ours = list(worked()) + [f(rnd) for _ in range(200) for f in (random_input, lambda r: damaged(r, random_input(r)))]
    inputs = [random_input(rnd) for _ in range(1000)]
    answered = [(i, a) for i, a in zip(inputs, original(sys.argv[1], inputs)) if not program(i).startswith('refused 8')]
    with open('../crates/vectors_listings/stdin', 'w') as out:
        out.write(HEAD)
        for data in ours:
            write(out, data, program(data))
        out.write(BY_THE_ORIGINAL)
        for data, text in answered:
            write(out, data, text)
    with open('../crates/vectors_listings/stdout', 'w') as out:
        out.write(f'vectors {len(ours) + len(answered)} differences 0\n')


if __name__ == "__main__":
    main()
