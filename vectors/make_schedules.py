"""Writes the schedule vectors: crates/vectors_schedules/stdin and stdout. Run it in this folder."""

import random

from model import Refused, addition, build, drop_closed, entries

HEAD = """# Schedule vectors. A question, in u32: what is asked, a number that goes with it, and words.
#   0 build: kind times 256 plus comment; each given range, its start times 65536 plus its end
#   1 addition: how many words the first schedule has; its words and the second's
#   2 drop closed: 0; the schedule's words
#   3 listing: how many cells are lent; the schedule's words
# A word is start 11 bits, end 11, kind 2, comment 8. Due, in u32: the refusal's number and place, or 0, how many, and the words.
# Made by vectors/make_schedules.py from the model in vectors/model.py; none of the Rattle code had a part in it.
"""


def word(r):
    return r[0] << 21 | r[1] << 10 | r[2] << 8 | r[3]


def due(make):
    try:
        out = make()
        return [0, len(out)] + [word(r) for r in out]
    except Refused as r:
        return [r.number, r.place]


def listed(ranges, cells):
    out = entries(ranges)
    if len(out) > cells:
        raise Refused(9, len(out))
    return out


def built(kind, comment, given):
    return [0, kind << 8 | comment] + [start << 16 | end for start, end in given], due(lambda: build(given, kind, comment))


def added(a, b):
    return [1, len(a)] + [word(r) for r in a + b], due(lambda: addition(a, b))


def dropped(a):
    return [2, 0] + [word(r) for r in a], due(lambda: drop_closed(a))


def shown_in(a, cells):
    return [3, cells] + [word(r) for r in a], due(lambda: listed(a, cells))


def shown(a):
    return shown_in(a, 129)


def ladder(count, width, kind, comment, first=0, step=20):
    return [(first + step * i, first + step * i + width, kind, comment) for i in range(count)]


def random_schedule(rnd, most):
    count = rnd.choice((0, 1, 2, 3, 8, most))
    ends = sorted(rnd.sample(range(1441), 2 * count))
    if rnd.random() < 0.5 and count:
        ends[1::2] = [rnd.choice((e, n)) for e, n in zip(ends[1::2], ends[2::2] + [ends[-1]])]
    states = [(rnd.randint(0, 2), rnd.choice((0, 0, 1, 255))) for _ in range(3)]
    return [(s, e) + rnd.choice(states) for s, e in zip(ends[::2], ends[1::2])]


def worked():
    open_day = [(600, 1080, 0, 0)]
    yield added(open_day, [(720, 780, 2, 0)])
    yield added(open_day, [(1080, 1200, 0, 0)])
    yield added([(0, 10, 0, 0), (10, 20, 0, 0)], [])
    yield added([], [(0, 10, 0, 0), (10, 20, 0, 0)])
    yield added([(0, 10, 0, 0), (10, 20, 0, 0)], [(12, 14, 2, 0), (20, 30, 0, 0)])
    yield built(0, 0, [(600, 960), (720, 840)])
    yield built(0, 0, [(600, 960), (960, 1000), (500, 600)])
    yield built(3, 0, [(0, 2000)])
    yield built(2, 255, [(1500, 1441)])
    yield built(1, 0, [(1500, 1440)])
    yield built(0, 0, [])
    for n in (63, 64, 65):
        yield built(0, 0, [(20 * i, 20 * i + 10) for i in range(n)])
        yield built(0, 0, [(5, 5)] * n)
        yield added(ladder(n, 10, 0, 0), [])
        yield added([], ladder(n, 10, 0, 0))
        yield shown(ladder(n, 10, 0, 0))
        yield dropped(ladder(n, 10, 1, 0))
    for extra in (1, 2):
        yield added(ladder(63, 10, 0, 0), ladder(extra, 4, 2, 0, 1270 + 10))
    # an intermediate 66: the second's last range splits one of 64, and its first then covers most of them
    yield added(ladder(64, 10, 0, 0), [(0, 1000, 2, 0), (1203, 1207, 2, 0)])
    # 64 ranges with a split of each: 192 inside, refused on the finished result
    yield added(ladder(64, 10, 0, 0), ladder(64, 4, 2, 0, 3))
    # 129 entries
    yield shown(ladder(64, 10, 0, 0, 5))
    for cells in (0, 1, 2, 3, 4):
        yield shown_in(open_day, cells)
    for cells in (128, 129, 130):
        yield shown_in(ladder(64, 10, 0, 0, 5), cells)
    for bad in ([(5, 5, 0, 0)], [(0, 1441, 0, 0)], [(0, 10, 3, 0)], [(10, 20, 0, 0), (0, 5, 0, 0)], [(0, 10, 0, 0), (9, 20, 0, 0)]):
        yield added(bad, open_day)
        yield added(open_day, bad)
        yield added(bad, bad)
        yield shown(bad)
        yield shown_in(bad, 0)
        yield dropped(bad)


def questions():
    rnd = random.Random(4)
    yield from worked()
    for _ in range(700):
        a, b = random_schedule(rnd, 64), random_schedule(rnd, 40)
        yield added(a, b)
        yield dropped(a)
        yield shown(a)
        yield shown_in(b, rnd.randint(0, 20))
        given = [(rnd.randint(0, 1440), rnd.randint(0, 1440)) for _ in range(rnd.choice((0, 1, 2, 5, 8, 20)))]
        yield built(rnd.randint(0, 2), rnd.randint(0, 255), given)


def main():
    asked = list(questions())
    with open('../crates/vectors_schedules/stdin', 'w') as out:
        out.write(HEAD)
        for question, answer in asked:
            out.write(' '.join(''.join(format(w, '08x') for w in part) for part in (question, answer)) + '\n')
    with open('../crates/vectors_schedules/stdout', 'w') as out:
        out.write(f'vectors {len(asked)} differences 0\n')


main()
