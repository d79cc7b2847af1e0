"""Writes the holiday image vectors: crates/vectors_holidays/stdin and stdout. Run it in this folder."""

import random

from images import Random, holiday_image, random_date
from model import Refused, count_in_month, first_after, month_length, read_holidays

HEAD = """# Holiday image vectors. A question: what is asked, year, month and day as four u32, then an image.
# Asked: 0 whether the image is sound by itself; 1 to 4 whether in slot 0 to 3, the other slots empty; 5 the count in the month;
# 6 the first after the date. Due, as u32: the refusal's number and place, or 0 and the count, or 0 and year, month, day, all 0
# where there is none. Made by vectors/make_holidays.py from the model in vectors/model.py; none of the Rattle code had a part in it.
"""

NOBODY = (0, 0, 0)


def due(asked, d, image):
    try:
        if asked == 5:
            return [0, count_in_month(image, d[0], d[1])]
        if asked == 6:
            return [0, *(first_after(image, d) or NOBODY)]
        if read_holidays(image, None if asked == 0 else asked - 1) is None:
            raise Refused(5, max(asked - 1, 0))
        return [0, 0]
    except Refused as r:
        return [r.number, r.place]


def sound_everywhere(image):
    for asked in range(5):
        yield asked, NOBODY, image


def questions():
    rnd = random.Random(3)
    for text in ('', '00', '0000', '000000', '9c3c00', '9c4000', '1fa000', '1fa001', '1fa002', '1fa003', '1fa0', '1fa00000', '9c3c04', '76ac00', '76b000'):
        yield from sound_everywhere(bytes.fromhex(text))
    year = {(2024, m, d) for m in range(1, 13) for d in range(1, month_length(2024, m) + 1)}
    full = holiday_image(2024, 1, 0, 0, year)
    yield from sound_everywhere(full)
    for i in range(8 * len(full)):
        turned = bytearray(full)
        turned[i // 8] ^= 128 >> i % 8
        yield 0, NOBODY, bytes(turned)
    for length in (len(full) - 1, len(full) + 1):
        yield 0, NOBODY, (full + b'\0')[:length]
    long_file = holiday_image(1900, 200, 1, 1, {(y, 12, 25) for y in range(1900, 2100)})
    yield from sound_everywhere(long_file)
    yield 6, (1899, 1, 1), long_file
    yield 6, (2099, 12, 24), long_file
    yield 6, (2099, 12, 25), long_file
    too_many = bytearray(long_file + bytes(47))
    too_many[1], too_many[2] = too_many[1], (201 << 2 | 3) & 255
    yield 0, NOBODY, bytes(too_many)
    yield from sound_everywhere(holiday_image(9999, 1, 0, 1, {(9999, 12, 31)}))
    for d in ((9999, 12, 30), (9999, 12, 31), (10000, 1, 1), (12000, 12, 31), (12001, 1, 1), (2023, 2, 29), (0, 1, 1), (2024, 13, 1), (2024, 0, 1), (2024, 1, 0)):
        for image in (b'', holiday_image(9999, 1, 0, 1, {(9999, 12, 31)}), full, b'\0'):
            yield 5, d, image
            yield 6, d, image
    for _ in range(500):
        near = random_date(rnd)
        image = Random(rnd, near).holidays(rnd.randint(0, 3))
        if rnd.random() < 0.15 and image:
            hurt = bytearray(image)
            i = rnd.randint(0, 8 * len(hurt) - 1)
            hurt[i // 8] ^= 128 >> i % 8
            image = bytes(hurt)
        yield rnd.randint(0, 4), NOBODY, image
        year = near[0] + rnd.randint(-3, 3)
        month = rnd.randint(1, 12)
        d = (year, month, rnd.randint(1, month_length(year, month)))
        for asked in (5, 6):
            yield asked, near, image
            yield asked, d, image


def main():
    asked = list(questions())
    with open('../crates/vectors_holidays/stdin', 'w') as out:
        out.write(HEAD)
        for what, d, image in asked:
            question = ''.join(format(w, '08x') for w in (what, *d)) + image.hex()
            out.write(question + ' ' + ''.join(format(w, '08x') for w in due(what, d, image)) + '\n')
    with open('../crates/vectors_holidays/stdout', 'w') as out:
        out.write(f'vectors {len(asked)} differences 0\n')


main()
