"""Random rule and holiday images, from values to bits. Every choice comes from one seeded generator."""

from model import month_length


class Writer:
    def __init__(self):
        self.bits = []

    def put(self, value, width):
        self.bits += [(value >> (width - 1 - i)) & 1 for i in range(width)]

    def image(self):
        bits = self.bits + [0] * (-len(self.bits) % 8)
        return bytes(int(''.join(map(str, bits[i:i + 8])), 2) for i in range(0, len(bits), 8))


def put_date(w, d):
    w.put({'fixed': 0, 'nth': 1, 'easter': 2}[d[0]], 2)
    w.put(1 if d[1] else 0, 1)
    w.put(d[1], 14)
    if d[0] == 'fixed':
        w.put(d[2], 4)
        w.put(d[3], 5)
    if d[0] == 'nth':
        w.put(d[2], 4)
        w.put(d[3], 3)
        w.put(d[4] % 16, 4)


def put_monthday(w, m):
    if m[0] == 'months':
        w.put(0, 2)
        w.put(m[1], 4)
        w.put(m[2], 4)
    elif m[0] == 'year months':
        w.put(1, 2)
        w.put(m[1], 14)
        w.put(m[2], 4)
        w.put(m[3], 4)
    else:
        w.put(2, 2)
        put_date(w, m[1])
        w.put(m[2] % 1024, 10)
        put_date(w, m[3])
        w.put(m[4] % 1024, 10)


def put_weekday(w, i):
    if i[0] == 'days':
        w.put(0, 1)
        for value, width in zip(i[1:5], (3, 3, 5, 5)):
            w.put(value, width)
    else:
        w.put(1, 1)
        w.put(i[1], 1)
    w.put(i[-1] % 1024, 10)


def put_time(w, t):
    w.put(0 if t[0] == 'fixed' else 1, 1)
    if t[0] == 'fixed':
        w.put(t[1], 12)
    else:
        w.put(t[1], 2)
        w.put(t[2] % 4096, 12)


def sheet_image(rules):
    w = Writer()
    w.put(1, 4)
    w.put(0, 6)
    w.put(len(rules), 6)
    for r in rules:
        w.put(r['operator'], 2)
        w.put(r['kind'], 2)
        w.put(r['comment'], 8)
        for name in ('years', 'monthdays', 'weeks', 'weekdays', 'spans'):
            w.put(len(r[name]), 4)
        for y in r['years']:
            for v in y:
                w.put(v, 14)
        for m in r['monthdays']:
            put_monthday(w, m)
        for k in r['weeks']:
            for v in k:
                w.put(v, 6)
        for i in r['weekdays']:
            put_weekday(w, i)
        for a, b in r['spans']:
            put_time(w, a)
            put_time(w, b)
    return w.image(), len(w.bits)


def holiday_image(first, years, school, unknown, days):
    w = Writer()
    w.put(first, 14)
    w.put(years, 8)
    w.put(school, 1)
    w.put(unknown, 1)
    for y in range(first, first + years):
        for m in range(1, 13):
            for d in range(1, 32):
                w.put(1 if (y, m, d) in days else 0, 1)
    return w.image()


class Random:
    """Values near a date, so that what is drawn often matters on it."""

    def __init__(self, rnd, near):
        self.rnd, self.near = rnd, near

    def year(self):
        r = self.rnd
        y = r.choice((self.near[0], self.near[0] + r.randint(-2, 2), r.randint(1900, 9999), r.choice((1900, 1901, 9998, 9999))))
        return min(max(y, 1900), 9999)

    def offset(self):
        r = self.rnd
        return r.choice((0, 0, 0, r.randint(-7, 7), r.randint(-366, 366), r.choice((-366, -365, 365, 366))))

    def month(self):
        return self.rnd.choice((self.near[1], self.rnd.randint(1, 12), 2))

    def date(self):
        r = self.rnd
        year = self.year() if r.random() < 0.25 else 0
        form = r.choice(('fixed', 'fixed', 'nth', 'easter'))
        if form == 'easter':
            return (form, year)
        if form == 'nth':
            return (form, year, self.month(), r.randint(0, 6), r.choice((r.randint(-8, 7), r.randint(-5, 5), 1, -1)))
        day = r.choice((self.near[2], r.randint(1, 31), 29, 30, 31, 1))
        return (form, year, self.month(), day)

    def monthday(self):
        r = self.rnd
        form = r.choice(('months', 'year months', 'dates', 'dates', 'dates'))
        if form == 'months':
            return (form, self.month(), self.month())
        if form == 'year months':
            return (form, self.year(), self.month(), self.month())
        if r.random() < 0.1:
            return (form, ('fixed', 0, 2, 29), self.offset(), ('fixed', 0, 2, 29), self.offset())
        return (form, self.date(), self.offset(), self.date(), self.offset())

    def weekday(self):
        r = self.rnd
        if r.random() < 0.35:
            return ('holiday', r.randint(0, 1), self.offset())
        flags = r.choice(((31, 31), (31, 0), (0, 31), (r.randint(0, 31), r.randint(0, 31))))
        return ('days', r.randint(0, 6), r.randint(0, 6)) + flags + (self.offset(),)

    def time(self):
        r = self.rnd
        if r.random() < 0.25:
            return ('event', r.randint(0, 3), r.choice((0, r.randint(-120, 120), r.randint(-1440, 1440))))
        return ('fixed', r.choice((r.randint(0, 1440), r.randint(0, 2880), 60 * r.randint(0, 48), 0, 1440, 2880)))

    def some(self, make, most=8, empty=0.6):
        r = self.rnd
        if r.random() < empty:
            return []
        count = r.choice((1, 1, 1, 2, 3, most))
        return [make() for _ in range(count)]

    def rule(self, spans=8):
        r = self.rnd
        return {
            'operator': r.choice((0, 0, 1, 2)),
            'kind': r.choice((0, 0, 1, 2)),
            'comment': r.choice((0, 0, 1, r.randint(0, 255))),
            'years': self.some(lambda: (self.year(), self.year(), r.choice((1, 1, 2, r.randint(1, 9999)))), empty=0.85),
            'monthdays': self.some(self.monthday, empty=0.6),
            'weeks': self.some(lambda: (r.randint(1, 53), r.randint(1, 53), r.choice((1, 1, 2, r.randint(1, 53)))), empty=0.85),
            'weekdays': self.some(self.weekday, empty=0.5),
            'spans': self.some(lambda: (self.time(), self.time()), spans, empty=0.1),
        }

    def sheet(self, most=6):
        return [self.rule() for _ in range(self.rnd.choice((0, 1, 1, 2, 3, self.rnd.randint(0, most))))]

    def holidays(self, slot):
        r = self.rnd
        if r.random() < 0.4:
            return b''
        years = r.choice((0, 1, 1, 2, 3))
        first = min(max(self.near[0] + r.randint(-2, 1), 1900), 10000 - max(years, 1))
        days = set()
        for y in range(first, first + years):
            for _ in range(r.choice((0, 3, 12, 60))):
                m = r.choice((r.randint(1, 12), self.near[1]))
                days.add((y, m, r.randint(1, month_length(y, m))))
            if r.random() < 0.4 and self.near[2] <= month_length(y, self.near[1]):
                days.add((y,) + self.near[1:])
        return holiday_image(first, years, slot >> 1, slot & 1, days)

    def events(self):
        r = self.rnd
        return [r.choice((65535, r.randint(0, 1439), 360 + 300 * i)) for i in range(4)]


def random_date(rnd):
    kind = rnd.random()
    if kind < 0.1:
        year = rnd.choice((1900, 1901, 9998, 9999))
    elif kind < 0.5:
        year = rnd.randint(2015, 2030)
    else:
        year = rnd.randint(1900, 9999)
    month = rnd.choice((rnd.randint(1, 12), 1, 2, 3, 12))
    day = rnd.choice((rnd.randint(1, 31), 1, 28, 29, 31))
    return year, month, min(day, month_length(year, month))
