"""Writes the calendar vectors: crates/vectors_calendar/stdin and stdout. Run it in this folder."""

import random

from model import easter, exists, iso_week, month_length, number, weekday

HEAD = """# Calendar vectors: a date and another one, as six u32; the answers due to the first: whether it exists, then
# pairs of a refusal number (0: none) and the value or place: month length, weekday, ISO week; Easter as number, year, month, day;
# last the days from the first to the second: number, 1 where it is before, count.
# Made by vectors/make_calendar.py from Python's datetime (weekday, isocalendar, toordinal; beyond 9999 by the cycle of
# 400 years) and Gauss's Easter rule, which dateutil's agrees with in the years 1 to 9999.
"""


def pair(ok, value):
    return [0, value()] if ok else [7, 0]


def answers(d, other):
    year, month, _ = d
    in_years = 1 <= year <= 12000
    there = exists(d)
    words = [1 if there else 0]
    words += pair(in_years and 1 <= month <= 12, lambda: month_length(year, month))
    words += pair(there, lambda: weekday(number(d)))
    words += pair(there, lambda: iso_week(number(d)))
    words += [0, *easter(year)] if in_years else [7, 0]
    words += [0] * (11 - len(words))
    if there and exists(other):
        apart = number(other) - number(d)
        words += [0, int(apart < 0), abs(apart)]
    else:
        words += [7, 0]
    return words


def dates(rnd):
    for year in (1, 2, 4, 100, 400, 1582, 1899, 1900, 1904, 2000, 2020, 2021, 2024, 2100, 9999, 10000, 11999, 12000):
        for month, day in ((1, 1), (1, 3), (1, 4), (2, 28), (2, 29), (2, 30), (3, 1), (12, 28), (12, 29), (12, 31), (12, 32), (13, 1), (0, 1), (4, 31), (6, 0)):
            yield year, month, day
    yield from ((0, 1, 1), (12001, 1, 1), (4294967295, 12, 31), (2024, 4294967295, 1), (2024, 1, 4294967295))
    for _ in range(3000):
        yield rnd.randint(1, 12000), rnd.randint(1, 12), rnd.randint(1, 31)


def hexed(words):
    return ''.join(format(w, '08x') for w in words)


def main():
    rnd = random.Random(20261115)
    asked = list(dates(rnd))
    with open('../crates/vectors_calendar/stdin', 'w') as out:
        out.write(HEAD)
        for d in asked:
            other = rnd.choice(asked)
            out.write(f'{hexed(d + other)} {hexed(answers(d, other))}\n')
    with open('../crates/vectors_calendar/stdout', 'w') as out:
        out.write(f'vectors {len(asked)} differences 0\n')


main()
