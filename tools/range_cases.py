#!/usr/bin/env python3
"""Writes the cases of crate ranges_cases: its standard input, and what it must write.

    python3 tools/range_cases.py crates/ranges_cases

writes the files `stdin` and `stdout` of that folder. The expected answers are computed here, by the rules of
docs/RULES.md (section 4 and refusals 6, 7 and 8), with integers that have no limit, and by other means than
the code's: for a small object the asked bytes are looked at one by one and sorted into parts one by one;
roundings are found by a search among the multiples; the pieces of a large range are walked part by part,
from the front and from the back. Nothing here was taken from what the program prints.

A line of the output is: answer | what goes down when no head is held | its body | pieces.
  answer   `start end`, or `6 StartTooLarge requested length`, or `6 Inconsistent start end`
  down     the rounded request as it is written on a line, or `7` and the number that does not round up
  body     the same as an answer, for the rounded request; an `8` behind it where it begins inside a part;
           `-` where nothing goes down
  pieces   their number, then the first, the second and the last as `part:start-end`, `-` for one that is not
           there; `-` alone where the answer is refused
"""

import os
import sys

LIMIT = 2**64  # numbers are below this
SMALL = 40000  # objects up to this size are looked at byte by byte


# -- which bytes are asked for ---------------------------------------------------------------------------------

def is_asked(kind, numbers, size, i):
    """Byte i of an object of `size` bytes is asked for, by the table of section 4."""
    if i >= size:
        return False
    if kind == "all":
        return True
    if kind == "bounded":
        return numbers[0] <= i < numbers[1]
    if kind == "offset":
        return numbers[0] <= i
    return size - i <= numbers[0]  # among the last so many bytes


def refusal(kind, numbers, size):
    if kind in ("bounded", "offset") and not numbers[0] < size:
        return "6 StartTooLarge %d %d" % (numbers[0], size)
    if kind == "bounded" and not numbers[0] < numbers[1]:
        return "6 Inconsistent %d %d" % numbers
    return None


def first_true(low, high, holds):
    """The least number from low to high at which `holds` (false, then true) is true; high is taken as true."""
    while low < high:
        middle = (low + high) // 2
        if holds(middle):
            high = middle
        else:
            low = middle + 1
    return low


def asked_bytes(kind, numbers, size):
    """start and end of the bytes that are asked for; size, size if there are none."""
    if size <= SMALL:
        asked = [i for i in range(size) if is_asked(kind, numbers, size, i)]
        if not asked:
            return size, size
        assert asked == list(range(asked[0], asked[-1] + 1))
        return asked[0], asked[-1] + 1
    # The asked bytes are one run. Every kind's run touches the byte 0, the byte at its start or the last byte.
    inside = [i for i in (0, numbers[0] if numbers else 0, size - 1) if is_asked(kind, numbers, size, i)]
    if not inside:
        return size, size
    seen = inside[0]
    start = first_true(0, seen, lambda i: is_asked(kind, numbers, size, i))
    end = first_true(seen, size, lambda i: not is_asked(kind, numbers, size, i))
    return start, end


def canonical(kind, numbers, size):
    """(start, end, None), or (None, None, refusal)."""
    refused = refusal(kind, numbers, size)
    if refused:
        return None, None, refused
    start, end = asked_bytes(kind, numbers, size)
    return start, end, None


# -- rounding --------------------------------------------------------------------------------------------------

def round_up(n, p):
    """The least multiple of p that is at least n."""
    return first_true(0, n + 1, lambda k: k * p >= n) * p


def round_down(n, p):
    """The largest multiple of p that is at most n."""
    return (first_true(0, n + 1, lambda k: k * p > n) - 1) * p


def rounded(kind, numbers, p):
    """(kind, numbers, None), or (None, None, the number that does not round)."""
    if kind == "all":
        return kind, numbers, None
    if kind == "offset":
        return kind, (round_down(numbers[0], p),), None
    up = round_up(numbers[-1], p)
    if up > LIMIT - 1:
        return None, None, numbers[-1]
    if kind == "suffix":
        return kind, (up,), None
    return kind, (round_down(numbers[0], p), up), None


# -- pieces ----------------------------------------------------------------------------------------------------

def sorted_bytes(start, end, p):
    """The pieces of a range that has bytes, by sorting each byte into its part."""
    pieces = []
    for i in range(start, end):
        part, place = divmod(i, p)
        if pieces and pieces[-1][0] == part:
            pieces[-1][2] = place + 1
        else:
            pieces.append([part, place, place + 1])
    return [tuple(piece) for piece in pieces]


def piece_in(begin, start, end, p):
    """The piece in the part that begins at `begin`."""
    part, left = divmod(begin, p)
    assert left == 0
    a, b = 0, p
    if begin <= start < begin + p:  # the first part
        a = start - begin
    if begin < end <= begin + p or (start == end and begin <= end < begin + p):  # the last
        b = end - begin
    return part, a, b


def pieces_of(start, end, p):
    """How many pieces, the first, the second and the last; None for one that is not there."""
    low, high = round_down(start, p), round_up(end, p)
    number = 0 if high <= low else (high - low) // p
    if end - start <= SMALL:
        walked = []
        begin = low
        while begin < high:
            walked.append(piece_in(begin, start, end, p))
            begin += p
        assert len(walked) == number
        if start < end:
            assert walked == sorted_bytes(start, end, p)
    else:
        walked = [piece_in(low, start, end, p), piece_in(low + p, start, end, p), piece_in(high - p, start, end, p)]
    first = walked[0] if number > 0 else None
    second = walked[1] if number > 1 else None
    last = walked[-1] if number > 0 else None
    return number, first, second, last


# -- lines -----------------------------------------------------------------------------------------------------

def written(kind, numbers):
    if kind == "all":
        return "all"
    if kind == "bounded":
        return "from %d to %d" % numbers
    if kind == "offset":
        return "from %d" % numbers
    return "tail %d" % numbers


def short(piece):
    return "-" if piece is None else "%d:%d-%d" % piece


def expected(size, p, kind, numbers):
    start, end, refused = canonical(kind, numbers, size)
    if refused:
        answer, pieces = refused, "-"
    else:
        answer = "%d %d" % (start, end)
        number, first, second, last = pieces_of(start, end, p)
        pieces = "%d %s %s %s" % (number, short(first), short(second), short(last))
    down_kind, down_numbers, overflow = rounded(kind, numbers, p)
    if down_kind is None:
        return "%s | 7 %d | - | %s" % (answer, overflow, pieces)
    start, end, refused = canonical(down_kind, down_numbers, size)
    if refused:
        body = refused
    else:
        body = "%d %d" % (start, end)
        if round_down(start, p) != start:
            body += " 8"
    return "%s | %s | %s | %s" % (answer, written(down_kind, down_numbers), body, pieces)


def cases():
    for p in (1024, 3072, 16384):
        near = [0, 1, p - 1, p, p + 1, 2 * p - 1, 2 * p, 2 * p + 1]
        top = round_down(LIMIT - 1, p)  # the last multiple in 64 bits
        far = [2**63 - 1, 2**63, 2**63 + 1, top - p, top - 1, top, top + 1, LIMIT - 2, LIMIT - 1]
        huge = [2**63, top, LIMIT - 1]
        for size in near + far:
            yield size, p, "all", ()
        for size in near + huge:
            for n in near + far:
                yield size, p, "offset", (n,)
                yield size, p, "suffix", (n,)
        for size in near:
            for a in near:
                for b in near + [top, top + 1, LIMIT - 1]:
                    yield size, p, "bounded", (a, b)
        for size in huge:
            for a in [0, p + 1] + far:
                for b in [p - 1, 2 * p] + far:
                    yield size, p, "bounded", (a, b)


def main():
    if len(sys.argv) != 2:
        sys.exit("usage: range_cases.py FOLDER")
    asked = ["# Written by tools/range_cases.py, with the file stdout: do not edit."]
    answers = []
    for size, p, kind, numbers in cases():
        asked.append("%d %d %s" % (size, p, written(kind, numbers)))
        answers.append(expected(size, p, kind, numbers))
    for name, lines in (("stdin", asked), ("stdout", answers)):
        with open(os.path.join(sys.argv[1], name), "w") as out:
            out.write("\n".join(lines) + "\n")
    print("%d cases" % len(answers))


if __name__ == "__main__":
    main()
