"""The exchanges of tests/rows/reader.rows and client.rows as rows for tests/refuse_each.py: for each step, the steps up to it."""
from parts.rows import Row, rows_in

# What only says what is known of a ROSpec.
VIEWS = ("?", "view")
# Of an exchange with more steps than these only the whole one is a row.
MOST_STEPS = 40


def fronts(row):
    """Returns a row for each front of the steps of an exchange, without those that only say what is known."""
    first, *steps = row.words
    steps = [it for it in steps if not it.startswith(VIEWS)]
    counts = range(1, len(steps) + 1) if len(steps) <= MOST_STEPS else [len(steps)]
    return [Row(f"{row.name}, {count}", row.call, [first, *steps[:count]], [], False) for count in counts]


def frame_of(rows, name, step):
    """Returns the digits of the frame that an exchange takes in a step, counted from 0."""
    row = next(it for it in rows if it.name == name)
    return row.words[1 + step].split("@")[1].replace(" ", "")


def reader_rows():
    """Returns the rows of `Reader::step`: those of the exchanges, and tables and buffers of each size."""
    exchanges = rows_in("reader")
    whole = "a ROSpec is added, refused, enabled, started, stopped and deleted"
    polled = "reports are sent on request alone, 64 are held, and one more is an overflow"
    add, add_polled = frame_of(exchanges, whole, 2), frame_of(exchanges, polled, 1)
    enable, start = frame_of(exchanges, polled, 2), frame_of(exchanges, polled, 3)
    rows = [front for it in exchanges for front in fronts(it)]

    def put(name, *steps):
        rows.append(Row(name, "reader", ["1048576", *steps], [], False))

    started = ["0@connect", f"1@{add_polled}", f"4@{enable}", f"5@{start}"]
    for held in (0, 1, 2, 4, 8, 16, 32, 63, 64):
        seen = started + ["6@seen:1"] * held
        put(f"{held} reports are held, one more", *seen, "6@seen:1")
        put(f"{held} reports are asked for", *seen, "7@083C0000000A00000008")
    for count in range(1, 10):
        added = ["0@connect"] + [f"1@{add[:28]}{number:08X}{add[36:]}" for number in range(1, count + 1)]
        put(f"{count} ROSpecs", *added)
        put(f"{count} ROSpecs, all enabled", *added, "2@08180000000E0000000300000000")
        put(f"{count} ROSpecs, all deleted", *added, "2@08150000000E0000000300000000")
        put(f"{count} ROSpecs, all listed", *added, "2@081A0000000A00000003")
    return rows


def client_rows():
    """Returns the rows of `Client::command` and `Client::take`: the client's first id, and a front of an exchange."""
    return [front for it in rows_in("client") for front in fronts(it)]
