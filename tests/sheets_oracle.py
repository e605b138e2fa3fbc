#!/usr/bin/env python3
"""Computes what the program `sheets` must print, from Python's own calendar, the formats of paper 01 and C-12 of paper 02.

  sheets_oracle.py            write crates/sheets/stdout
  sheets_oracle.py --check    fail if crates/sheets/stdout is not what this script computes

Nothing here is taken from the crates: dates are datetime.date's, entries are joined from their bit widths, and every
answer comes from the sentences of 01, with the renewals of C-12.

A line for each year: its number and five digests, over all 16 x 32 patterns of month and day that an entry can hold, and
all but the first over the states 0 to 4, of which 1 to 3 are real.

  numbers      the day number
  renewals     renewal by 0 to 11 years
  verdicts     days left and verdict, on days around the end
  twice        renewal by first and then by second years, each at least 1, the sum at most 10: the entry, or 8
  differing    for the same lengths, 0 where one renewal by first + second gives the same answer, 1 where it does not

So a year in which nothing differs has 0 at its end. Then a line for each value of the four kind bits: digests of unpacking
numbers whose fields stand at their edges, and of packing messages, some with a field over its width, into buffers of 0 to
13 bytes.

The script also tests C-12's law, on every date, in every state and with all lengths of `twice`: only an end on 28 February
of a leap year may differ, and both ways are refused where the year passes 2199, and only there. It tests the papers'
examples of renewal too. If a test fails, it says which date and lengths, and writes nothing.
"""
import calendar
import datetime
import functools
import pathlib
import sys

STDOUT = pathlib.Path(__file__).resolve().parent.parent / "crates" / "sheets" / "stdout"
MODULUS, FACTOR = 4294967291, 1000003
NO_ENTRY = 8
DAY_ZERO = datetime.date(1899, 12, 31).toordinal()
PULP, HOLD, PRINT = 20, 21, 22
OPEN, SUSPENDED, WITHDRAWN = 1, 2, 3
LENGTHS = [(first, second) for first in range(1, 10) for second in range(1, 11 - first)]
EXAMPLES = (
    # An end, the years of one renewal or of two, and the new end.
    ((2024, 2, 29), (1,), (2025, 2, 28)),
    ((2024, 2, 29), (4,), (2028, 2, 29)),
    ((2027, 2, 28), (1,), (2028, 2, 29)),
    ((2028, 2, 28), (1,), (2029, 2, 28)),
    ((2028, 2, 28), (1, 3), (2032, 2, 29)),
    ((2028, 2, 28), (4,), (2032, 2, 28)),
)


def digest(h, numbers):
    for x in numbers:
        h = (h * FACTOR + x) % MODULUS
    return h


def numbers_of_dates():
    """The day number of each real date from 1900 to 2199: 1 January 1900 is day 1."""
    day, end, found = datetime.date(1900, 1, 1), datetime.date(2200, 1, 1), {}
    while day < end:
        found[day.year, day.month, day.day] = day.toordinal() - DAY_ZERO
        day += datetime.timedelta(days=1)
    return found


NUMBERS = numbers_of_dates()


@functools.lru_cache(2**15)
def joined(year, month, day, copies, state):
    """Most significant first: year 12 bits, month 4, day 5, copies 16, state 3."""
    return int(f"{year:012b}{month:04b}{day:05b}{copies:016b}{state:03b}", 2)


@functools.lru_cache(2**15)
def split(entry):
    """The fields of an entry: year, month, day, copies, state."""
    bits = f"{entry:040b}"
    return int(bits[:12], 2), int(bits[12:16], 2), int(bits[16:21], 2), int(bits[21:37], 2), int(bits[37:], 2)


def last_of_february(year):
    return calendar.monthrange(year, 2)[1]


def is_licence(year, month, day, copies, state):
    return (year, month, day) in NUMBERS and state in (OPEN, SUSPENDED, WITHDRAWN)


def renewed(year, month, day, copies, state, years):
    """A renewal's answer: the new entry, or the refusal."""
    if not is_licence(year, month, day, copies, state) or years > 10:
        return NO_ENTRY
    later = year + (years or 1)
    if later > 2199:
        return NO_ENTRY
    if month == 2 and day == last_of_february(year):
        day = last_of_february(later)
    end = datetime.date(later, month, day)
    return joined(end.year, end.month, end.day, copies, state)


@functools.lru_cache(2**15)
def renewed_by_each(year, month, day, copies, state):
    """The answers of renewals by 0 to 11 years."""
    return [renewed(year, month, day, copies, state, years) for years in range(12)]


def renewed_once(fields):
    """The answers of one renewal by first + second years, in the order of LENGTHS."""
    answers = renewed_by_each(*fields)
    return [answers[first + second] for first, second in LENGTHS]


def renewed_twice(fields):
    """The answers of renewing by first years and then the entry that this gave by second years, in the order of LENGTHS."""
    found = []
    for first in range(1, 10):
        answer = renewed_by_each(*fields)[first]
        if answer == NO_ENTRY:
            found += [NO_ENTRY] * (10 - first)
        else:
            found += renewed_by_each(*split(answer))[1 : 11 - first]
    return found


def told(answer):
    """An answer for a reader: the refusal, or the new end."""
    return answer if answer == NO_ENTRY else split(answer)[:3]


def test_examples():
    for end, lengths, later in EXAMPLES:
        answer = joined(*end, 40, OPEN)
        for years in lengths:
            answer = renewed(*split(answer), years)
        if answer != joined(*later, 40, OPEN):
            years = " and then ".join(map(str, lengths))
            sys.exit(f"sheets_oracle: {end} renewed by {years} must be {later}, but is {told(answer)}")


def test_law(end, twice, once):
    """C-12's law for a date: the answers of renewing twice and of renewing once by the sum, in the order of LENGTHS."""
    year, month, day = end
    may_differ = (month, day) == (2, 28) and (year, 2, 29) in NUMBERS
    for (first, second), by_two, by_one in zip(LENGTHS, twice, once, strict=True):
        late = year + first + second > 2199
        if by_two != by_one and not may_differ:
            broken = "only 28 February of a leap year may differ"
        elif (by_two == NO_ENTRY) != late or (by_one == NO_ENTRY) != late:
            broken = "both are refused where the year passes 2199, and only there"
        else:
            continue
        ways = f"{end} by {first} and then {second} is {told(by_two)}, by the sum {told(by_one)}"
        sys.exit(f"sheets_oracle: {ways}, but {broken}")


def renewed_both_ways(fields):
    """The answers of renewing twice, and of renewing once by the sum; those of a licence are tested."""
    if not is_licence(*fields):
        return [NO_ENTRY] * len(LENGTHS), [NO_ENTRY] * len(LENGTHS)
    twice, once = renewed_twice(fields), renewed_once(fields)
    test_law(fields[:3], twice, once)
    return twice, once


def judged(end, state, day):
    """The numbers of days left and verdict on a day: 0, the days raised by 2 ** 31, the verdict; or the refusals."""
    if end not in NUMBERS or not OPEN <= state <= WITHDRAWN or day not in NUMBERS:
        return [NO_ENTRY, NO_ENTRY]
    left = NUMBERS[end] - NUMBERS[day]
    if left < 0 or state == WITHDRAWN:
        verdict = PULP
    else:
        verdict = HOLD if state == SUSPENDED else PRINT
    return [0, left + 2**31, verdict]


def days_around(year, month, day):
    yield year, month, max(day - 1, 0)
    yield year, month, day
    yield year, month, day + 1
    for last in (28, 29, 30, 31):
        yield year, max(month - 1, 0), last
    yield year, month + 1, 1
    yield year - 1, 12, 31
    yield year + 1, 1, 1


def line(year, counts):
    """A year's line. For each licence, counts gets how many of its lengths differ."""
    numbers = renewals = verdicts = twice = differing = 0
    for month in range(16):
        for day in range(32):
            end = year, month, day
            copies = month * 4000 + day
            numbers = digest(numbers, [0, NUMBERS[end]] if end in NUMBERS else [NO_ENTRY])
            around = list(days_around(*end))
            for state in range(5):
                fields = *end, copies, state
                for answer in renewed_by_each(*fields):
                    renewals = digest(renewals, [NO_ENTRY] if answer == NO_ENTRY else [0, answer])
                for other in around:
                    verdicts = digest(verdicts, judged(end, state, other))
                by_two, by_one = renewed_both_ways(fields)
                differences = [int(two != one) for two, one in zip(by_two, by_one, strict=True)]
                twice = digest(twice, by_two)
                differing = digest(differing, differences)
                if is_licence(*fields):
                    counts[fields] = sum(differences)
    return f"{year} {numbers} {renewals} {verdicts} {twice} {differing}"


FIELDS = ("tag", 20), ("counter", 20), ("client", 4), ("entry", 40)
USED = {
    1: ("tag",),
    2: ("tag", "counter", "client", "entry"),
    3: (),
    4: ("counter", "client", "entry"),
    5: ("counter", "client", "entry"),
    6: ("counter",),
}
TAGS_AND_COUNTERS = 0, 1, 2**20 - 1, 2**20, 2**32 - 1
PAIRS = 0, 1, 2**40 - 1, 2**40, 2**44, 2**64 - 1
MALFORMED, SHORT_BUFFER = 9, 13


def packed(kind, fields):
    """Eleven bytes, most significant bit first: kind 4, tag 20, counter 20, client 4, entry 40."""
    bits = f"{kind:04b}" + "".join(f"{fields[name]:0{width}b}" for name, width in FIELDS)
    return int(bits, 2).to_bytes(11, "big")


def unpacked(text):
    """The numbers of an answer: 0, the kind and the fields that it uses; or the refusal."""
    if len(text) != 11:
        return [MALFORMED]
    bits = "".join(f"{byte:08b}" for byte in text)
    kind, at, fields = int(bits[:4], 2), 4, {}
    for name, width in FIELDS:
        fields[name] = int(bits[at : at + width], 2)
        at += width
    if kind not in USED or any(fields[name] for name, _ in FIELDS if name not in USED[kind]):
        return [MALFORMED]
    return [0, kind] + [fields[name] for name in USED[kind]]


def unpack_digest(kind):
    h = 0
    for tag in 0, 1, 2**20 - 1:
        for counter in 0, 1, 2**20 - 1:
            for client in 0, 1, 15:
                for entry in 0, 1, 2**40 - 1:
                    fields = {"tag": tag, "counter": counter, "client": client, "entry": entry}
                    text = packed(kind, fields) + b"\0"
                    for length in 10, 11, 12:
                        h = digest(h, unpacked(text[:length]))
    return h


def pack_digest(kind):
    """The messages of a kind, and of kind 6 where there is no other."""
    kind = kind if 1 <= kind <= 5 else 6
    h = 0
    for number in TAGS_AND_COUNTERS:
        for pair in PAIRS:
            fields = {"tag": 0, "counter": pair >> 44, "client": pair >> 40 & 15, "entry": pair % 2**40}
            fields["counter" if kind == 6 else "tag"] = number
            fields = {name: fields[name] if name in USED[kind] else 0 for name, _ in FIELDS}
            for length in range(14):
                buffer = b"\xa5" * length
                if any(fields[name] >= 2**width for name, width in FIELDS):
                    answer = MALFORMED
                elif length < 11:
                    answer = SHORT_BUFFER
                else:
                    answer, buffer = 0, packed(kind, fields) + buffer[11:]
                h = digest(h, [answer, *buffer])
    return h


def lines(counts):
    for year in range(1898, 2203):
        yield line(year, counts)
    for kind in range(16):
        yield f"kind {kind} {unpack_digest(kind)} {pack_digest(kind)}"


def summary(counts):
    tried, differ = len(counts) * len(LENGTHS), sum(counts.values())
    dates = {fields[:3] for fields, count in counts.items() if count}
    return (
        f"{tried} times a licence was renewed twice: {differ} differ from one renewal by the sum, "
        f"on {len(dates)} dates, all of them 28 February of a leap year"
    )


def main():
    test_examples()
    counts = {}
    text = "".join(f"{line}\n" for line in lines(counts))
    if sys.argv[1:] == ["--check"]:
        if STDOUT.read_text() != text:
            sys.exit("sheets_oracle: crates/sheets/stdout is not what this script computes")
        print("sheets_oracle: crates/sheets/stdout is right")
        print(f"sheets_oracle: {summary(counts)}")
    else:
        STDOUT.write_text(text)


if __name__ == "__main__":
    main()
