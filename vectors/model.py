"""A plain model of the rules in docs/RULES.md, written from them alone and for reading, not for speed.

The recorded vectors are made with it; nothing here knows the Rattle code. Dates are (year, month, day),
days are Python ordinals shifted so that 0001-01-01 is 367 (years from 10000 on go by the 400-year cycle).
"""

from datetime import date

CYCLE_YEARS, CYCLE_DAYS = 400, 146097
NONE = 65535


class Refused(Exception):
    def __init__(self, number, place, at=None):
        super().__init__(number, place)
        self.number, self.place, self.at = number, place, at


# ---- the calendar, by Python's own ---------------------------------------------------------------

def folded(year):
    """The same year of the cycle that Python's calendar reaches, and the days it lies behind."""
    turns = 0
    while year > 9999:
        year, turns = year - CYCLE_YEARS, turns + 1
    while year < 1:
        year, turns = year + CYCLE_YEARS, turns - 1
    return year, turns


def exists(d):
    year, month, day = d
    if not (1 <= year <= 12000 and 1 <= month <= 12 and 1 <= day):
        return False
    return day <= month_length(year, month)


def month_length(year, month):
    y, _ = folded(year)
    if month == 12:
        return 31
    return (date(y, month + 1, 1) - date(y, month, 1)).days


def number(d):
    year, month, day = d
    y, turns = folded(year)
    return date(y, month, day).toordinal() + 366 + turns * CYCLE_DAYS


def date_of(n):
    turns = 0
    while n - 366 > date.max.toordinal():
        n, turns = n - CYCLE_DAYS, turns + 1
    d = date.fromordinal(n - 366)
    return d.year + turns * CYCLE_YEARS, d.month, d.day


def weekday(n):
    return (n - 367) % 7


def iso_week(n):
    year, month, day = date_of(n)
    y, _ = folded(year if year < 9999 else year - CYCLE_YEARS)
    return date(y, month, day).isocalendar()[1]


def easter(year):
    """Gauss's rule with Lichtenberg's correction: another formula than the Rust's."""
    k = year // 100
    m = 15 + (3 * k + 3) // 4 - (8 * k + 13) // 25
    s = 2 - (3 * k + 3) // 4
    a = year % 19
    d = (19 * a + m) % 30
    r = (d + a // 11) // 29
    og = 21 + d - r
    sz = 7 - (year + year // 4 + s) % 7
    oe = 7 - (og - sz) % 7
    march = og + oe
    return (year, 3, march) if march <= 31 else (year, 4, march - 31)


# ---- rule images ---------------------------------------------------------------------------------

class Bits:
    def __init__(self, image):
        self.image, self.at = image, 0

    def field(self, width, low=0, high=None, number=3):
        first = self.at
        if first + width > 8 * len(self.image):
            raise Refused(1, first)
        value = 0
        for i in range(first, first + width):
            value = value * 2 + (self.image[i // 8] >> (7 - i % 8) & 1)
        if value < low or (high is not None and value > high):
            raise Refused(number, first)
        self.at = first + width
        return value

    def signed(self, width, limit):
        first = self.at
        value = self.field(width)
        if value >= 1 << (width - 1):
            value -= 1 << width
        if abs(value) > limit:
            raise Refused(3, first)
        return value


def read_date(b):
    tag = b.field(2, 0, 2, 2)
    flag = b.field(1)
    year = b.field(14, 1900, 9999) if flag else b.field(14, 0, 0)
    if tag == 2:
        return ('easter', year)
    month = b.field(4, 1, 12)
    if tag == 0:
        return ('fixed', year, month, b.field(5, 1, 31))
    weekday_ = b.field(3, 0, 6, 2)
    return ('nth', year, month, weekday_, b.signed(4, 8))


def read_monthday(b):
    tag = b.field(2, 0, 2, 2)
    if tag == 0:
        return ('months', b.field(4, 1, 12), b.field(4, 1, 12))
    if tag == 1:
        return ('year months', b.field(14, 1900, 9999), b.field(4, 1, 12), b.field(4, 1, 12))
    start = read_date(b)
    start_offset = b.signed(10, 366)
    end = read_date(b)
    return ('dates', start, start_offset, end, b.signed(10, 366))


def read_weekday(b):
    if b.field(1) == 0:
        return ('days', b.field(3, 0, 6, 2), b.field(3, 0, 6, 2), b.field(5), b.field(5), b.signed(10, 366))
    return ('holiday', b.field(1), b.signed(10, 366))


def read_time(b):
    if b.field(1) == 0:
        return ('fixed', b.field(12, 0, 2880))
    return ('event', b.field(2), b.signed(12, 1440))


def read_rule(b):
    rule = {'operator': b.field(2, 0, 2, 2), 'kind': b.field(2, 0, 2, 2), 'comment': b.field(8)}
    counts = [b.field(4, 0, 8) for _ in range(5)]
    rule['years'] = [(b.field(14, 1900, 9999), b.field(14, 1900, 9999), b.field(14, 1, 9999)) for _ in range(counts[0])]
    rule['monthdays'] = [read_monthday(b) for _ in range(counts[1])]
    rule['weeks'] = [(b.field(6, 1, 53), b.field(6, 1, 53), b.field(6, 1, 53)) for _ in range(counts[2])]
    rule['weekdays'] = [read_weekday(b) for _ in range(counts[3])]
    rule['spans'] = [(read_time(b), read_time(b)) for _ in range(counts[4])]
    return rule


def read_sheet(image):
    b = Bits(image)
    b.field(4, 1, 1, 2)
    b.field(6, 0, 0, 2)
    rules = [read_rule(b) for _ in range(b.field(6, 0, 32))]
    while b.at % 8:
        b.field(1, 0, 0, 4)
    if b.at < 8 * len(image):
        raise Refused(4, b.at)
    return rules


# ---- holiday images ------------------------------------------------------------------------------

def read_holidays(image, slot=None):
    """The set of dates that an image names and its years, or None where it breaks its rules."""
    if len(image) == 0:
        return {'first': 0, 'years': 0, 'days': frozenset()}
    bits = ''.join(format(x, '08b') for x in image)
    if len(bits) < 24:
        return None
    first, years, flags = int(bits[:14], 2), int(bits[14:22], 2), int(bits[22:24], 2)
    if not 1900 <= first <= 9999 or years > 200 or (years and first + years - 1 > 9999):
        return None
    if len(image) != (24 + 372 * years + 7) // 8 or '1' in bits[24 + 372 * years:]:
        return None
    if slot is not None and flags != slot:
        return None
    days = set()
    for i in range(372 * years):
        if bits[24 + i] == '1':
            d = (first + i // 372, i % 372 // 31 + 1, i % 31 + 1)
            if d[2] > month_length(d[0], d[1]):
                return None
            days.add(d)
    return {'first': first, 'years': years, 'days': frozenset(days)}


def count_in_month(image, year, month):
    h = read_holidays(image)
    if h is None:
        raise Refused(5, 0)
    if not (1 <= year <= 12000 and 1 <= month <= 12):
        raise Refused(7, 0)
    return sum(1 for d in h['days'] if d[:2] == (year, month))


def first_after(image, d):
    h = read_holidays(image)
    if h is None:
        raise Refused(5, 0)
    if not exists(d):
        raise Refused(7, 0)
    return min((x for x in h['days'] if x > d), default=None)


# ---- date filters --------------------------------------------------------------------------------

FIRST_DAY, LAST_DAY = 693962, 3652426


def circular(start, end, x):
    return start <= x <= end if start <= end else x >= start or x <= end


def nth_weekday(year, month, wd, nth):
    length = month_length(year, month)
    days = [d for d in range(1, length + 1) if weekday(number((year, month, d))) == wd]
    if nth > 0 and nth <= len(days):
        return number((year, month, days[nth - 1]))
    if nth < 0 and -nth <= len(days):
        return number((year, month, days[nth]))
    return None


def on_year(d, year, as_end):
    if d[0] == 'easter':
        return number(easter(year))
    if d[0] == 'nth':
        return nth_weekday(year, d[2], d[3], d[4])
    _, _, month, day = d
    length = month_length(year, month)
    if day <= length:
        return number((year, month, day))
    return number((year, month, length)) + (0 if as_end else 1)


def moved(d, offset, year, as_end):
    n = on_year(d, d[1] or year, as_end)
    return None if n is None else n + offset


def rising(numbers):
    kept = []
    for n in numbers:
        if n is not None and (not kept or n > kept[-1]):
            kept.append(n)
    return kept


def dates_intervals(item, n):
    _, start, start_offset, end, end_offset = item
    if start[1] or end[1]:
        y = start[1] or end[1]
        for a, b in ((y, y), (y - 1, y), (y, y + 1)):
            s, e = moved(start, start_offset, a, False), moved(end, end_offset, b, True)
            if s is not None and e is not None and s <= e:
                return [(s, e)]
        return []
    year = date_of(n)[0]
    if start[0] == end[0] == 'fixed' and start[2:] == end[2:] == (2, 29):
        leaps = [y for y in range(year - 4, year + 5) if month_length(y, 2) == 29]
        return [(number((y, 2, 29)) + start_offset, number((y, 2, 29)) + end_offset) for y in leaps]
    around = (year - 1, year, year + 1)
    starts = rising(moved(start, start_offset, y, False) for y in around)
    ends = rising(moved(end, end_offset, y, True) for y in around)
    if not starts:
        return [(FIRST_DAY, ends[0])] if ends else []
    intervals = []
    for s in starts:
        while ends and ends[0] < s:
            ends.pop(0)
        e = ends[0] if ends else LAST_DAY
        if ends and ends[0] == s:
            ends.pop(0)
        intervals.append((s, e))
    return intervals


def monthday_matches(item, n):
    year, month, _ = date_of(n)
    if item[0] == 'months':
        return circular(item[1], item[2], month)
    if item[0] == 'year months':
        _, y, a, b = item
        return number((y, a, 1)) <= n <= number((y if a <= b else y + 1, b, 1))
    both_leap = item[1][0] == item[3][0] == 'fixed' and item[1] == item[3] == ('fixed', 0, 2, 29)
    intervals = dates_intervals(item, n)
    if both_leap:
        return any(s <= n <= e for s, e in intervals)
    for s, e in intervals:
        if n <= e:
            return s <= n
    return False


def weekday_matches(item, n, holidays):
    if item[0] == 'holiday':
        d = date_of(n - item[2])
        return any(d in holidays[2 * item[1] + k]['days'] for k in (0, 1))
    _, start, end, from_start, from_end, offset = item
    m = n - offset
    year, month, day = date_of(m)
    ahead, behind = (day - 1) // 7, (month_length(year, month) - day) // 7
    flag = from_start >> (4 - ahead) & 1 or from_end >> (4 - behind) & 1
    return circular(start, end, weekday(m)) and bool(flag)


def matches(rule, n, holidays):
    year = date_of(n)[0]
    week = iso_week(n)
    lists = (
        [a <= year <= b and (year - a) % step == 0 for a, b, step in rule['years']],
        [monthday_matches(i, n) for i in rule['monthdays']],
        [a <= week <= b and (week - a) % step == 0 for a, b, step in rule['weeks']],
        [weekday_matches(i, n, holidays) for i in rule['weekdays']],
    )
    return all(not l or any(l) for l in lists)


def kind_on(rule, n, holidays):
    for item in rule['weekdays']:
        if item[0] == 'holiday' and date_of(n - item[2]) in holidays[2 * item[1] + 1]['days']:
            return 2
    return rule['kind']


# ---- spans ---------------------------------------------------------------------------------------

def naive(time, events):
    if time[0] == 'fixed':
        return time[1]
    _, event, offset = time
    if events[event] == NONE or not 0 <= events[event] + offset <= 2880:
        return None
    return events[event] + offset


def interval(span, n, events):
    start, end = (naive(t, events) for t in span)
    summer = (3, 20) <= date_of(n)[1:] < (9, 22)
    if start is None and end is None:
        if (span[0][1:] <= span[1][1:]) != summer:
            return None
        start, end = 0, 1440
    elif start is None:
        if (span[0][1] <= 1) != summer:
            return None
        start = 0
    elif end is None:
        if (span[1][1] <= 1) == summer:
            return None
        end = 1440
    if not start < end:
        end = min(end + 1440, 2880)
    return start, end


# ---- schedules: lists of (start, end, kind, comment) ------------------------------------------------

def build(given, kind, comment):
    if kind > 2:
        raise Refused(2, 0)
    if len(given) > 64 or any(end > 1440 for _, end in given):
        raise Refused(3, 0)
    covered = [any(start <= t < end for start, end in given) for t in range(1441)]
    out = []
    for t in range(1440):
        if covered[t] and not (t and covered[t - 1]):
            out.append((t, next(u for u in range(t, 1441) if not covered[u]), kind, comment))
    return out


def is_schedule(ranges):
    lowest = 0
    for start, end, kind, _ in ranges:
        if not (lowest <= start < end <= 1440 and kind <= 2):
            return False
        lowest = end
    return len(ranges) <= 64


def insert(new, ranges):
    """Cut the old ranges outside the new one, then join it with touching neighbours of its state, repeatedly."""
    before = [(s, min(e, new[0]), k, c) for s, e, k, c in ranges if s < min(e, new[0])]
    after = [(max(s, new[1]), e, k, c) for s, e, k, c in ranges if max(s, new[1]) < e]
    start, end, kind, comment = new
    while before and before[-1][1:] == (start, kind, comment):
        start = before.pop()[0]
    while after and after[0][0] == end and after[0][2:] == (kind, comment):
        end = after.pop(0)[1]
    return before + [(start, end, kind, comment)] + after


def addition(first, second):
    if not is_schedule(first):
        raise Refused(10, 0)
    if not is_schedule(second):
        raise Refused(10, 1)
    for r in reversed(second):
        first = insert(r, first)
    if len(first) > 64:
        raise Refused(8, 0)
    return first


def drop_closed(ranges):
    if not is_schedule(ranges):
        raise Refused(10, 0)
    return [r for r in ranges if r[2:] != (1, 0)]


def entries(ranges):
    if not is_schedule(ranges):
        raise Refused(10, 0)
    minutes = [(1, 0)] * 1440
    for start, end, kind, comment in ranges:
        minutes[start:end] = [(kind, comment)] * (end - start)
    return [(s, e) + state for s, e, state in runs(minutes)]


# ---- a day, by minutes and by ranges ---------------------------------------------------------------

def shut(evaluation):
    return all(s is None or s == (1, 0) for s in evaluation)


def own(rule, n, events, holidays):
    today, night = matches(rule, n, holidays), matches(rule, n - 1, holidays)
    if not (today or night):
        return None, False
    minutes = [None] * 1440
    for day, on, shift in ((n, today, 0), (n - 1, night, 1440)):
        if on:
            state = (kind_on(rule, day, holidays), rule['comment'])
            for span in rule['spans']:
                cover = interval(span, day, events)
                if cover:
                    for t in range(max(cover[0] - shift, 0), min(cover[1] - shift, 1440)):
                        minutes[t] = state
    return minutes, today


def overlay(below, above):
    if below is None or above is None:
        return above if below is None else below
    return [b if a is None else a for a, b in zip(above, below)]


def runs(minutes):
    out = []
    for t, s in enumerate(minutes):
        if out and out[-1][2] == s and out[-1][1] == t:
            out[-1][1] = t + 1
        else:
            out.append([t, t + 1, s])
    return [tuple(r) for r in out]


def evaluate(rules, n, events, holidays):
    """The minutes of a day, or refusal 8. Stored ranges are the maximal runs of shown states."""
    previous, matched = None, False
    for i, rule in enumerate(rules):
        mine, today = own(rule, n, events, holidays)
        lasting = previous is not None and not shut(previous)
        if rule['operator'] == 2:
            if not (matched and lasting):
                previous, matched = mine, today
        elif rule['operator'] == 1 or rule['kind'] == 1:
            matched = matched or today
            both = previous is not None and mine is not None
            previous = overlay(previous, mine)
            if both and sum(1 for r in runs(previous) if r[2] is not None) > 64:
                raise Refused(8, i)
        else:
            matched = matched or today
            if today or not lasting:
                previous = mine
    if previous is None:
        previous = [None] * 1440
    return [(1, 0) if s is None else s for s in previous]


def day_minutes(rules, n, events, holidays):
    if not FIRST_DAY <= n < LAST_DAY:
        return [(1, 0)] * 1440
    return evaluate(rules, n, events, holidays)


def checked(image, events, holiday_images, d):
    rules = read_sheet(image)
    holidays = [read_holidays(h, slot) for slot, h in enumerate(holiday_images)]
    for slot, h in enumerate(holidays):
        if h is None:
            raise Refused(5, slot)
    for i, e in enumerate(events):
        if not (e <= 1439 or e == NONE):
            raise Refused(6, i)
    if not exists(d):
        raise Refused(7, 0)
    return rules, holidays


def listing(image, events, holiday_images, d):
    rules, holidays = checked(image, events, holiday_images, d)
    return runs(day_minutes(rules, number(d), events, holidays))


def next_change(image, events, holiday_images, d, minute, days):
    rules, holidays = checked(image, events, holiday_images, d)
    if minute > 1439 or days > 3660:
        raise Refused(7, 0)
    n, examined = number(d), 0
    state = None
    for k in range(days or 366):
        if n + k >= LAST_DAY:
            break
        try:
            minutes = day_minutes(rules, n + k, events, holidays)
        except Refused as r:
            raise Refused(r.number, r.place, date_of(n + k))
        examined += 1
        if state is None:
            state = minutes[minute]
        for t in range(minute + 1 if k == 0 else 0, 1440):
            if minutes[t] != state:
                return date_of(n + k), t, examined
    return None, 0, examined


# ---- the program's text ----------------------------------------------------------------------------

def take(data, at):
    if at + 2 > len(data):
        raise ValueError
    size = data[at] * 256 + data[at + 1]
    if at + 2 + size > len(data):
        raise ValueError
    return data[at + 2:at + 2 + size], at + 2 + size


def program(data):
    try:
        if len(data) > 65536:
            raise ValueError
        image, at = take(data, 0)
        if at + 8 > len(data):
            raise ValueError
        events = [data[at + 2 * i] * 256 + data[at + 2 * i + 1] for i in range(4)]
        at += 8
        slots = []
        for _ in range(4):
            h, at = take(data, at)
            slots.append(h)
        if at + 6 != len(data):
            raise ValueError
        d = tuple(data[at + 2 * i] * 256 + data[at + 2 * i + 1] for i in range(3))
    except ValueError:
        return 'bad input\n'
    try:
        entries = listing(image, events, slots, d)
    except Refused as r:
        return f'refused {r.number} place {r.place}\n'
    names = ('open', 'closed', 'unknown')
    return ''.join(f'{s // 60:02}:{s % 60:02} {e // 60:02}:{e % 60:02} {names[k]} {c}\n' for s, e, (k, c) in entries)
