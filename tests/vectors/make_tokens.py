#!/usr/bin/env python3
"""Writes the table of tokens that the tests of gno_time read: for each token what read_value,
read_stamp and read_span answer, worked out by exact decimal arithmetic.

Run it anywhere: it prints crates/gno_time/src/tokens.rt.
"""
import datetime
import re
from fractions import Fraction

NUMBER = re.compile(r"(-?)(0|[1-9][0-9]*)(?:\.([0-9]+))?(?:[eE]([+-]?[0-9]+))?\Z", re.ASCII)
DATE = re.compile(
    r"([0-9]{4})-([0-9]{2})-([0-9]{2})"
    r"(?:[T ]([0-9]{2}):([0-9]{2})(?::([0-9]{2})(?:\.([0-9]{1,9}))?)?(Z|z|[+-][0-9]{2}:[0-9]{2})?)?\Z",
    re.ASCII,
)
AMOUNT = re.compile(r"([0-9]+)(?:\.([0-9]+))?( *)([a-z]+)\Z", re.ASCII)
CLOCK = re.compile(
    r"(?:([0-9]+) days?, )?([0-9]{1,2}):([0-9]{2}):([0-9]{2})(?:\.([0-9]{1,9}))?\Z", re.ASCII
)
UNITS = {}
for nanos, words in (
    (10**6, "ms millisecond milliseconds"),
    (10**9, "s sec second seconds"),
    (60 * 10**9, "m min minute minutes"),
    (3600 * 10**9, "h hour hours"),
    (86400 * 10**9, "d day days"),
    (604800 * 10**9, "w week weeks"),
):
    for word in words.split():
        UNITS[word] = nanos


def exact(token):
    """The exact value of a number token, or None."""
    if len(token) > 64:
        return None
    match = NUMBER.match(token)
    if not match:
        return None
    sign, whole, fraction, exponent = match.groups()
    fraction = fraction or ""
    power = int(exponent or "0") - len(fraction)
    # Python keeps powers of ten below a thousand digits here: larger ones are cut, which changes
    # no answer, since a token has at most 64 digits.
    power = max(-500, min(500, power))
    value = Fraction(int(whole + fraction)) * Fraction(10) ** power
    return -value if sign else value


def value(token):
    if len(token) > 64:
        return "Err(NumFault::TooLong)"
    number = exact(token)
    if number is None:
        return "Err(NumFault::NotANumber)"
    units = abs(number) * 10**6
    rounded = (2 * units.numerator + units.denominator) // (2 * units.denominator)
    if rounded > 10**18:
        return "Err(NumFault::TooLarge)"
    return f"Ok({-rounded if number < 0 else rounded})"


def stamp(token):
    number = exact(token)
    if number is not None:
        if number < 0:
            return "Err(TimeFault::BeforeEpoch)"
        nanos = number * 10**9
        total = (2 * nanos.numerator + nanos.denominator) // (2 * nanos.denominator)
    else:
        match = DATE.match(token)
        if not match or len(token) > 64:
            return "Err(TimeFault::BadTime)"
        year, month, day, hour, minute, second, fraction, offset = match.groups()
        try:
            # The calendar of the year 0 is that of the year 400.
            shift = 400 if int(year) == 0 else 0
            days = datetime.date(int(year) + shift, int(month), int(day)).toordinal() - 719163
            days -= 146097 if shift else 0
        except ValueError:
            return "Err(TimeFault::BadTime)"
        hour, minute, second = int(hour or 0), int(minute or 0), int(second or 0)
        if hour > 23 or minute > 59 or second > 59:
            return "Err(TimeFault::BadTime)"
        seconds = days * 86400 + hour * 3600 + minute * 60 + second
        if offset and offset not in "Zz":
            east_hours, east_minutes = int(offset[1:3]), int(offset[4:6])
            if east_hours > 23 or east_minutes > 59:
                return "Err(TimeFault::BadTime)"
            east = east_hours * 3600 + east_minutes * 60
            seconds -= east if offset[0] == "+" else -east
        if seconds < 0:
            return "Err(TimeFault::BeforeEpoch)"
        total = seconds * 10**9 + int((fraction or "").ljust(9, "0"))
    if total >= 9 * 10**18:
        return "Err(TimeFault::TooLate)"
    return f"Ok({total})"


def span(token):
    number = exact(token)
    if number is not None:
        if token.startswith("-"):
            return "Err(SpanFault::BadSpan)"
        nanos = number * 10**9
    else:
        amount, clock = AMOUNT.match(token), CLOCK.match(token)
        if amount and amount.group(4) in UNITS:
            whole, fraction, _, unit = amount.groups()
            written = len(whole) + (1 + len(fraction) if fraction else 0)
            if written > 64:
                return "Err(SpanFault::BadSpan)"
            fraction = fraction or ""
            nanos = Fraction(int(whole + fraction), 10 ** len(fraction)) * UNITS[unit]
        elif clock:
            days, hour, minute, second, fraction = clock.groups()
            hour, minute, second = int(hour), int(minute), int(second)
            if hour > 23 or minute > 59 or second > 59:
                return "Err(SpanFault::BadSpan)"
            seconds = int(days or 0) * 86400 + hour * 3600 + minute * 60 + second
            nanos = Fraction(seconds * 10**9 + int((fraction or "").ljust(9, "0")))
        else:
            return "Err(SpanFault::BadSpan)"
    if nanos.denominator != 1:
        return "Err(SpanFault::BadSpan)"
    if not 10**6 <= nanos <= 9 * 10**18:
        return "Err(SpanFault::SpanRange)"
    return f"Ok({nanos.numerator})"


TOKENS = """\
0|-0|0.0|-0.0|0e5|-0e-5|00|01|-01|1|-1|+1|.5|1.|-|--1|e5|1e|1e+|1e-|1E5|1e+5|1e-5|1e05|1e-05|1.5e3|1.5E+3|15e-1
0.30000000000000004|5e-7|-5e-7|1e-7|4.9999999e-7|1000000000000|1000000000001|1000000000000.0000004|1000000000000.0000005
-1000000000000.0000005|999999999999.9999995|1e12|1e13|1e999999999999999999999999|0e999999999999999999999999
1e-999999999999999999999999|-1e-999999999999999999999999|NaN|Infinity|1_000|0x10|1,5| 1|1 |1.2.3|1e5.5|12a|1.0000005|2.0000005|-1.0000005
1.0000015|0.0000015|0.0000025|0000000000000000000000000000000000000000000000000000000000000001
1000000000000000000000000000000000000000000000000000000000000000|10000000000000000000000000000000000000000000000000000000000000000
0.00000000000000000000000000000000000000000000000000000000000001|0.000000000000000000000000000000000000000000000000000000000000001
10000000000000000000000000000000000000000000000000000000000e-52|1234567890123456789012345678901234567890e-30
0.0000000005|0.0000000004|0.00000000049999|1.0000000015|8999999999.9999999994|8999999999.9999999995|9000000000|8999999999|1e10
2024-02-29|2023-02-29|2000-02-29|1900-02-29|1970-01-01|1969-12-31|0000-01-01|0000-02-30|9999-12-31|2255-03-14|2255-03-14T16:00|2255-03-14T15:59:59.999999999
2024-02-29T12:00:00.5+01:30|2024-02-29T12:00:00.5-01:30|2024-02-29 12:00|2024-02-29T12:00Z|2024-02-29t12:00Z|2024-02-29T12:00z|2024-02-29T12:00:60|2024-02-29T24:00
2024-02-29T23:60|2024-02-29T12:00:00.|2024-02-29T12:00:00.1234567890|2024-02-29T12:00:00.123456789|2024-02-29Z|2024-02-29T|2024-02-29T12|2024-02-29T12:00+24:00
2024-02-29T12:00+23:60|2024-02-29T12:00+23:59|2024-02-29T12:00-23:59|2024-02-29T12:00+0130|1970-01-01T00:00+00:01|1969-12-31T23:59-00:01|1969-12-31T23:59:59.9-00:00|2024-2-29
2024-13-01|2024-00-10|2024-01-00|2024-04-31|2024-04-30|02024-01-01|2024-01-01T12:00.5|2024-01-01  12:00|2024-01-01T12:00:00ZZ|2016-12-31T23:59:60Z
60s|60 s|1.5 min|1.5min|1 day|1 days|1 day, 0:00:00|2 days, 0:00:00|1 days, 0:00:00|1 day,0:00:00|0:01:00|00:01:00|000:01:00|0:1:00|24:00:00|23:59:60|23:60:00|0:00:00|0:00:00.001|0:00:00.0009
0:00:00.0000000001|0:00:00.999999999|7 days, 23:59:59.5|007 days, 1:00:00|104166 days, 16:00:00|104166 days, 16:00:00.000000001|99999999999999999999999999 days, 0:00:00
0.0000000001|0.0005|0.001|0.0010000001|0.0009999999|9000000000.000000001|1.5 fortnight|1.5|1.5.5 s|1. s|.5 s|5|5 |5 S|1 msec|1 ms|0.5 ms|0.999999 ms|0.9999999 ms
0.00000000005 min|0.00000000001 min|1.00000000005 min|0.0000000000125 week|1.000000000000125 day|1.00000000000003125 weeks|14880.952380952380952 w|14880 weeks|14881 weeks|15000 w|2500000 h|2500001 hours|150000000 minutes|9000000000000 ms|9000000000001 milliseconds
00000000000000000000000000000000000000000000000000000000000000001 s|0000000000000000000000000000000000000000000000000000000000000001 s|1.00000000000000000000000000000000000000000000000000000000000000 s|1.000000000000000000000000000000000000000000000000000000000000000 s
99999999999999999999999999999999999999 w|99999999999999999999999999999999999999.5 ms|99999999999999999999999999999999999999.0000001 ms|1                                                                            s
"""


def rows():
    seen = []
    for line in TOKENS.splitlines():
        for token in line.split("|"):
            if token not in seen:
                seen.append(token)
    return seen


def answer(text):
    """`Ok(5)` as `5`, `Err(NumFault::TooLong)` as `TooLong`."""
    return text[3:-1] if text.startswith("Ok(") else text[4:-1].split("::")[1]


def main():
    print("// Written by tests/vectors/make_tokens.py: a token, and what `read_value`, `read_stamp` and")
    print("// `read_span` answer to it, in units of 10^-6 and in nanoseconds. A `>` stands before the token.")
    print('pub(crate) const TOKENS: &str = "\\')
    for token in rows():
        print(f">{token}|{answer(value(token))}|{answer(stamp(token))}|{answer(span(token))}\\n\\")
    print('";')


if __name__ == "__main__":
    main()
