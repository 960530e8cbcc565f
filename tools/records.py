"""Reads a record, version 1 or 2 (docs/RECORDS.md), by its lengths: which entries stand whole in it, and where they end. So it
knows what is left of one that was cut, as a journal is whose run was killed."""
import collections
import re

import faults

# One answer: the first word of its line, its address, where it begins and ends in the record, its faults, which are those of its
# line or of its hops, and the status of its last response, if there is one.
Entry = collections.namedtuple("Entry", "kind address start end faults status")
STATUS = re.compile(rb"HTTP/\d\.\d (\d{3})")
FIRST_LINES = {b"wgetr-record 1": 1, b"wgetr-record 2": 2}
WORDS = [word.encode() for word in faults.WORDS]


class Cut(Exception):
    """The record ends before the entry does."""


class Wrong(Exception):
    """The record has something else than an entry here."""


def line_at(text, at):
    """The line that begins here, and where it ends."""
    end = text.find(b"\n", at)
    if end < 0:
        raise Cut
    return text[at:end], end + 1


def behind_bytes(text, at, length):
    """Where the bytes of a response end, and the line feed behind them."""
    if not re.fullmatch(rb"0|[1-9]\d{0,18}", length):
        raise Wrong(f"the length {length!r} at byte {at}")
    end = at + int(length)
    if end >= len(text):
        raise Cut
    if text[end] != 10:
        raise Wrong(f"no line feed at byte {end}, behind a response")
    return end + 1


def answer_at(text, at, page, fault):
    """An answer, which is a response or a fault by its first word: its address, where it ends, its faults and its status."""
    line, end = line_at(text, at)
    match line.split(b" "):
        case [word, address, length] if word == page:
            status = STATUS.match(text, end)
            return address, behind_bytes(text, end, length), [], int(status[1]) if status else None
        case [word, kind, address] if word == fault and kind in WORDS:
            return address, end, [kind.decode()], None
    raise Wrong(f"the line {line[:80]!r} at byte {at}")


def hops_at(text, at, count):
    """Where so many hops end, their faults, and the status of the last."""
    faults, status = [], None
    for _ in range(count):
        _, at, more, status = answer_at(text, at, b"hop", b"hopfault")
        faults += more
    return at, faults, status


def entry_at(text, start, version):
    line, end = line_at(text, start)
    faults, status = [], None
    match line.split(b" "), version:
        case [b"page" | b"fault", *_], _:
            address, end, faults, status = answer_at(text, start, b"page", b"fault")
        case [b"chain", address, count], 2 if count in (b"1", b"2", b"3", b"4", b"5", b"6"):
            end, faults, status = hops_at(text, end, int(count))
        case [b"robots", address, length], 1:
            end = behind_bytes(text, end, length)
        case [b"rules", b"all", address], 1:
            pass
        case [b"rules", b"none", address], 1:
            # Its robots file wasn't received: in version 2 this is a fault.
            faults.append("device")
        case _:
            raise Wrong(f"the line {line[:80]!r} at byte {start}")
    return Entry(line.split(b" ")[0].decode(), address.decode(), start, end, faults, status)


def read_front(text):
    """The entries that stand whole in a record, and how many bytes it has up to the end of the last. Raises Wrong where what
    stands behind them is more than a front of another, or an address is there twice."""
    entries, known, whole = [], set(), 0
    try:
        line, whole = line_at(text, 0)
        if line not in FIRST_LINES:
            raise Wrong(f"the first line {line[:80]!r}")
        while whole < len(text):
            entry = entry_at(text, whole, FIRST_LINES[line])
            # An origin's rules and its first page have one address.
            key = (entry.kind in ("page", "fault"), entry.address)
            if key in known:
                raise Wrong(f"{entry.kind} {entry.address} at byte {entry.start} was there before")
            known.add(key)
            entries.append(entry)
            whole = entry.end
    except Cut:
        pass
    return entries, whole


def read_whole(text):
    """The entries of a record, all of which is there."""
    entries, whole = read_front(text)
    if not text or whole < len(text):
        raise Wrong(f"what stands behind byte {whole} isn't whole")
    return entries
