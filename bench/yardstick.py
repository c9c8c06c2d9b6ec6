"""What CPython and orjson take for the same work on the same input, as lines on standard output:
the name of the work, the yardstick, and the median of the nanoseconds. The words are a part, a size
and rounds, and for `log` a folder with the file `log`."""
import json
import struct
import sys
import time
from datetime import datetime, timezone
from decimal import Decimal
from fnmatch import fnmatchcase

try:
    import orjson
except ImportError:
    orjson = None


def draws(state):
    while True:
        state = (state * 6364136223846793005 + 1442695040888963407) % 2**64
        yield state >> 33


def timed(name, yardstick, rounds, work):
    taken = []
    for _ in range(rounds):
        start = time.perf_counter_ns()
        work()
        taken.append(time.perf_counter_ns() - start)
    print(name, yardstick, sorted(taken)[len(taken) // 2])


def decimal_text(units):
    sign = "-" if units < 0 else ""
    whole, rest = divmod(abs(units), 10**6)
    return f"{sign}{whole}." + (f"{rest:06}".rstrip("0") or "0")


def value_of(drawn):
    return drawn % 10**9 * 1000


def seconds_of(drawn):
    return 1600000000 + drawn % 100000000


def date_of(seconds):
    return datetime.fromtimestamp(seconds, timezone.utc)


def values(size, rounds):
    row = draws(1)
    units = [value_of(next(row)) * (-1 if i % 2 else 1) for i in range(size)]
    tokens = [decimal_text(u) for u in units]
    timed("read_value", "Decimal", rounds, lambda: [Decimal(t) for t in tokens])


def stamps(size, rounds):
    row = draws(2)
    dates = [date_of(seconds_of(next(row))) for _ in range(size)]
    texts = [d.isoformat() for d in dates]
    timed("stamp_text", "isoformat", rounds, lambda: "".join([d.isoformat() for d in dates]))
    timed("read_date", "fromisoformat", rounds, lambda: [datetime.fromisoformat(t) for t in texts])


def print_rows(size, rounds):
    row = draws(3)
    rows = []
    for i in range(size):
        total, many = next(row), 1 + next(row) % 12
        rows.append((date_of(1600000020 + 60 * i), total / 1000 / many))

    def dumped():
        return json.dumps([[at.isoformat(), 60.0, value] for at, value in rows])

    timed("write_answer", "json.dumps", rounds, dumped)
    if orjson:
        timed("write_answer", "orjson.dumps", rounds,
              lambda: orjson.dumps([[at, 60.0, value] for at, value in rows]))


def bodies(size, rounds):
    row = draws(4)
    items = []
    for _ in range(size):
        at = seconds_of(next(row))
        items.append(f'{{"timestamp":{at},"value":{decimal_text(value_of(next(row)))}}}')
    body = ("[" + ",".join(items) + "]").encode()
    timed("read_measures", "json.loads", rounds, lambda: json.loads(body))
    if orjson:
        timed("read_measures", "orjson.loads", rounds, lambda: orjson.loads(body))


def codec(size, rounds):
    row = draws(6)
    blocks = []
    for first in range(0, size, 3600):
        count = min(3600, size - first)
        points = b"".join(struct.pack(">HQQQ", i, 0, next(row) * 1000, 1 + next(row) % 12)
                          for i in range(count))
        blocks.append(struct.pack(">H", count) + points)

    def read():
        return [list(struct.iter_unpack(">HQQQ", block[2:])) for block in blocks]

    splits = read()
    timed("read_split", "struct", rounds, read)
    timed("write_split", "struct", rounds,
          lambda: [struct.pack(">H", len(s)) + b"".join([struct.pack(">HQQQ", *p) for p in s])
                   for s in splits])


def policies(size, rounds):
    row = draws(5)
    patterns = []
    for i in range(size):
        drawn = next(row) % 100
        patterns.append(f"*.disk-{drawn}.*" if i % 2 else f"host-{drawn}.*")
    row = draws(5)
    names = [f"host-{next(row) % 100}.disk-{next(row) % 100}.read_bytes" for _ in range(16)]
    timed("choose", "fnmatchcase", rounds,
          lambda: [[p for p in patterns if fnmatchcase(n, p)] for n in names])


def log(size, rounds, folder):
    def mounted():
        with open(folder + "/log", "rb") as file:
            data = file.read()
        places, gate = [], 0
        while data[gate] == 1:
            length, = struct.unpack_from(">Q", data, gate + 1)
            places.append((gate + 9, length))
            gate += 9 + length
        return places

    timed("log_mount", "struct", rounds, mounted)


PARTS = {"values": values, "stamps": stamps, "print": print_rows, "json": bodies,
         "codec": codec, "policies": policies}

part, size, rounds = sys.argv[1], int(sys.argv[2]), int(sys.argv[3])
if part == "log":
    log(size, rounds, sys.argv[4])
elif part in PARTS:
    PARTS[part](size, rounds)
