#!/usr/bin/env python3
"""Writes the cases of the crates heads and head_damage: their standard input, and what they must write.

    python3 tools/stored_heads.py crates/heads
    python3 tools/stored_heads.py crates/head_damage

write the files `stdin` and `stdout` of that folder. The stored forms are computed here, by the rules of
docs/RULES.md (sections 2 and 3 and refusal 3), with integers that have no limit, and by other means than the
code's: a number is written from its binary digits; whether bytes are a stored head is found by taking them
apart into fields from the front, writing what was found again, and holding that against the bytes, so that
over-long numbers, bytes left over and truncated forms need no rule of their own. Nothing here was taken from
what the programs print.

A head is a line of words: `size=N` (always there), `time=N`, `etag=TEXT`, `version=TEXT`, and an attribute for
every other `KEY=TEXT`, or `metadata:KEY=TEXT` for metadata under any key. In a key or a text `%` and two hex
digits write a byte; a byte that is no printable ASCII, `%`, and `=` are printed so. `bytes` and decimal numbers
are stored bytes. A line whose first word begins with `#` is a comment.
"""

import os
import sys

KINDS = (b"Cache-Control", b"Content-Disposition", b"Content-Encoding", b"Content-Language", b"Content-Type")
FIELDS = (b"size", b"time", b"etag", b"version")
MOST_SIZE = 2**40
MOST_TIME = 2**42 - 1


class Refused(Exception):
    pass


class Head:
    """size, time, e_tag and version (bytes or None), attributes as (is it a known kind, key, value)."""

    def __init__(self, size, time=0, e_tag=None, version=None, attributes=()):
        self.size, self.time, self.e_tag, self.version = size, time, e_tag, version
        self.attributes = list(attributes)


# -- the stored form -------------------------------------------------------------------------------------------

def number_form(n):
    """Seven binary digits a byte, the lowest first."""
    digits = bin(n)[2:]
    digits = "0" * (-len(digits) % 7) + digits
    groups = [int(digits[i:i + 7], 2) for i in range(0, len(digits), 7)]
    groups.reverse()
    return bytes(g + 128 for g in groups[:-1]) + bytes(groups[-1:])


def label_form(label):
    return number_form(0) if label is None else number_form(len(label) + 1) + label


def stored_form(head):
    form = number_form(head.size) + number_form(head.time) + label_form(head.e_tag) + label_form(head.version)
    form += number_form(len(head.attributes))
    for _, key, value in head.attributes:
        form += number_form(len(key)) + key + number_form(len(value)) + value
    return form


def take_number(form):
    """The number that stands first, whatever its groups, and the bytes behind it."""
    for i, byte in enumerate(form):
        if byte < 128:
            return sum((b % 128) << (7 * j) for j, b in enumerate(form[:i + 1])), form[i + 1:]
    raise Refused("ends inside a number")


def take_bytes(form, n):
    if len(form) < n:
        raise Refused("ends inside bytes")
    return form[:n], form[n:]


def take_label(form):
    n, form = take_number(form)
    return (None, form) if n == 0 else take_bytes(form, n - 1)


def taken_apart(form):
    size, form = take_number(form)
    time, form = take_number(form)
    e_tag, form = take_label(form)
    version, form = take_label(form)
    count, form = take_number(form)
    if count > 8:
        raise Refused("too many attributes")
    attributes = []
    for _ in range(count):
        n, form = take_number(form)
        key, form = take_bytes(form, n)
        n, form = take_number(form)
        value, form = take_bytes(form, n)
        attributes.append((False, key, value))
    return Head(size, time, e_tag, version, attributes)


def is_within(head):
    labels = [x for x in (head.e_tag, head.version) if x is not None]
    return (head.size <= MOST_SIZE and head.time <= MOST_TIME and all(len(x) <= 64 for x in labels)
            and all(1 <= len(k) <= 32 and len(v) <= 64 for _, k, v in head.attributes))


def loaded(form):
    """The head that the bytes load as, or None: kinds by name, of equal names the later."""
    try:
        head = taken_apart(form)
    except Refused:
        return None
    if not is_within(head) or stored_form(head) != form:
        return None
    keys = [key for _, key, _ in head.attributes]
    head.attributes = [(key in KINDS, key, value) for i, (_, key, value) in enumerate(head.attributes)
                       if key not in keys[i + 1:]]
    return head


# -- heads as text ---------------------------------------------------------------------------------------------

def escaped(data):
    return "".join(chr(b) if 33 <= b <= 126 and b not in b"%=" else "%%%02X" % b for b in data)


def text_of(head):
    words = ["size=%d" % head.size, "time=%d" % head.time]
    if head.e_tag is not None:
        words.append("etag=" + escaped(head.e_tag))
    if head.version is not None:
        words.append("version=" + escaped(head.version))
    for known, key, value in head.attributes:
        mark = not known and (key in KINDS or key in FIELDS or key.startswith(b"metadata:"))
        words.append(("metadata:" if mark else "") + escaped(key) + "=" + escaped(value))
    return " ".join(words)


def unescaped(text):
    pieces = text.split("%")
    data = pieces[0].encode()
    for piece in pieces[1:]:
        if len(piece) < 2 or any(c not in "0123456789abcdefABCDEF" for c in piece[:2]):
            raise Refused("a % has no two hex digits behind it")
        data += bytes.fromhex(piece[:2]) + piece[2:].encode()
    return data


def number_in(text):
    digits = text[1:] if text.startswith("+") else text
    if not digits or any(c not in "0123456789" for c in digits) or int(digits) >= 2**64:
        raise Refused("it has no decimal number from 0 to 18446744073709551615 behind its =")
    return int(digits)


def label_in(what, text):
    data = unescaped(text)
    if len(data) > 64:
        raise Refused("refused 3: %s has at most 64 bytes, not %d" % (what, len(data)))
    return data


def attribute_in(name, text):
    own = name.startswith("metadata:")
    key = unescaped(name[len("metadata:"):] if own else name)
    if not 1 <= len(key) <= 32:
        raise Refused("refused 3: An attribute's key has 1 to 32 bytes, not %d" % len(key))
    return (not own and key in KINDS, key, label_in("An attribute's value", text))


def put_word(said, attributes, word):
    name, equals, text = word.partition("=")
    if not equals:
        raise Refused("it has no =")
    if name in said:
        raise Refused("an earlier word said the same")
    if name in ("size", "time"):
        said[name] = number_in(text)
    elif name == "etag":
        said[name] = label_in("An e_tag", text)
    elif name == "version":
        said[name] = label_in("A version", text)
    else:
        attribute = attribute_in(name, text)
        if len(attributes) == 8:
            raise Refused("refused 3: A head has at most 8 attributes, not 9")
        attributes.append(attribute)


def head_in(words):
    said, attributes = {}, []
    for i, word in enumerate(words):
        try:
            put_word(said, attributes, word)
        except Refused as why:
            raise Refused("word %d: %s" % (i + 1, why))
    if "size" not in said:
        raise Refused("no word says size=")
    if said["size"] > MOST_SIZE:
        raise Refused("refused 3: An object has at most 2^40 bytes, not %d" % said["size"])
    if said.get("time", 0) > MOST_TIME:
        raise Refused("refused 3: A time is below 2^42 milliseconds, not %d" % said["time"])
    return Head(said["size"], said.get("time", 0), said.get("etag"), said.get("version"), attributes)


# -- crate heads -----------------------------------------------------------------------------------------------

def decimal(form):
    return " ".join(str(b) for b in form)


def rows(form):
    return ["        " + decimal(form[i:i + 16]) for i in range(0, len(form), 16)]


def heads_output(lines):
    out, counts = [], {"saved": 0, "loaded": 0, "no head": 0, "neither": 0}
    for number, line in enumerate(lines, 1):
        words = line.split()
        if not words or words[0].startswith("#"):
            continue
        out.append("line %d: %s" % (number, line))
        if words[0] == "bytes":
            wrong = [i for i, w in enumerate(words[1:], 1) if not (w.isdecimal() and int(w) < 256)]
            if wrong:
                out += ["    no bytes: number %d is no decimal number from 0 to 255" % wrong[0], ""]
                counts["neither"] += 1
                continue
            head = loaded(bytes(int(w) for w in words[1:]))
            out += ["    no head" if head is None else "    loaded     " + text_of(head), ""]
            counts["no head" if head is None else "loaded"] += 1
            continue
        try:
            head = head_in(words)
        except Refused as why:
            out += ["    no head: %s" % why, ""]
            counts["neither"] += 1
            continue
        form = stored_form(head)
        out += ["    stored     %d bytes" % len(form)] + rows(form)
        out += ["    loaded     " + text_of(loaded(form)), ""]
        counts["saved"] += 1
    out.append("%(saved)d heads saved, %(loaded)d stored heads loaded, %(no head)d stored forms that are no head, "
               "%(neither)d lines that are neither" % counts)
    return out


def pattern(n, start=97):
    return bytes(start + i % 26 for i in range(n))


def longest():
    return Head(MOST_SIZE, MOST_TIME, pattern(64), pattern(64, 65),
                [(False, b"key-%d-" % i + pattern(26), pattern(64)) for i in range(8)])


def bytes_line(form):
    return "bytes " + decimal(form)


def heads_input():
    def text(**more):
        return text_of(Head(more.pop("size", 1500), **more))

    def entry(key, value=b"", known=False):
        return (known, key, value)

    many = [entry(b"k%d" % i, b"v%d" % i) for i in range(9)]
    whole = Head(1500, 7, b"abc", b"v1", [entry(b"owner", b"prepress")])
    form = stored_form(whole)
    return [
        "# Heads as text, and stored heads as bytes: every limit at its edge.",
        "",
        "size=1500",
        "size=1500 time=0 etag=abc version=v1 Content-Type=font/sfnt owner=prepress",
        "",
        "# sizes",
        *["size=%d" % n for n in (0, 127, 128, 16383, 16384, 2**40, 2**40 + 1, 2**64 - 1, 2**64)],
        "time=5",
        "size=abc",
        "size=",
        "size=1 size=1",
        "# times",
        *["size=1500 time=%d" % n for n in (1, 2**42 - 1, 2**42)],
        "size=%d time=%d" % (2**40 + 1, 2**42),
        "# e_tags and versions",
        "size=1500 etag=",
        "size=1500 version=",
        *[text(e_tag=pattern(n)) for n in (1, 64, 65)],
        *[text(version=pattern(n)) for n in (1, 64, 65)],
        "size=1500 etag=a etag=a",
        "size=1500 version= version=",
        "# keys and values",
        *[text(attributes=[entry(pattern(n), b"x")]) for n in (1, 32, 33)],
        "size=1500 =x",
        "size=1500 metadata:=x",
        *[text(attributes=[entry(b"k", pattern(n))]) for n in (0, 64, 65)],
        "size=1500 owner",
        "# eight attributes, and nine",
        text(attributes=many[:8]),
        text(attributes=many),
        "# the five names, by kind and as metadata, and names that are nearly one",
        "size=1500 " + " ".join("%s=%d" % (k.decode(), i) for i, k in enumerate(KINDS)),
        "size=1500 metadata:Content-Type=font/sfnt",
        "size=1500 content-type=a Content-Typ=b Content-Types=c",
        "# metadata under the names of fields",
        "size=1500 metadata:size=1 metadata:time=2 metadata:etag=3 metadata:version=4 metadata:metadata:x=5",
        "# equal names: the later stays",
        "size=1500 a=1 b=2 a=3",
        "size=1500 a=1 a=2 a=3 a=4 a=5 a=6 a=7 a=8",
        "size=1500 Content-Type=first metadata:Content-Type=second",
        "# any byte, by hex digits",
        "size=1500 etag=%00%0a%20%25%3D%7f%FF version=a=b k%3D%20=v",
        "size=1500 etag=%4",
        "size=1500 etag=%",
        "size=1500 etag=%g0",
        "size=1500 k%zz=x",
        "size=1500 %73ize=1",
        "# the longest form",
        text_of(longest()),
        "",
        "# Stored heads.",
        bytes_line(stored_form(Head(1500))),
        bytes_line(form),
        bytes_line(stored_form(Head(2**40, 2**42 - 1, b"", b""))),
        bytes_line(stored_form(longest())),
        "# a name that was saved twice, and one of the five",
        bytes_line(stored_form(Head(1, 0, None, None, [entry(b"a", b"1"), entry(b"Content-Type", b"x"),
                                                       entry(b"a", b"2")]))),
        "# a number with a group too many",
        "bytes 128 0 0 0 0 0",
        "bytes 220 139 0 0 0 0 0",
        "bytes 0 0 128 0 0 0",
        "bytes 0 0 0 0 128 0",
        "# bytes that end too soon, and bytes left over",
        *[bytes_line(form[:n]) for n in (1, 2, 4, len(form) - 1)],
        "bytes",
        bytes_line(form + b"\0"),
        "# a size above 2^40, a time of 2^42",
        bytes_line(stored_form(Head(2**40 + 1))),
        bytes_line(stored_form(Head(2**63))),
        bytes_line(stored_form(Head(0, 2**42))),
        "# an e_tag and a version of 65 bytes, a key of none and of 33, a value of 65",
        bytes_line(stored_form(Head(0, 0, pattern(65)))),
        bytes_line(stored_form(Head(0, 0, None, pattern(65)))),
        bytes_line(stored_form(Head(0, 0, None, None, [entry(b"", b"x")]))),
        bytes_line(stored_form(Head(0, 0, None, None, [entry(pattern(33), b"x")]))),
        bytes_line(stored_form(Head(0, 0, None, None, [entry(b"k", pattern(65))]))),
        "# a count of 9",
        bytes_line(stored_form(Head(0, 0, None, None, many))),
        "# no bytes",
        "bytes 0 256",
        "bytes 0 x 0",
    ]


# -- crate head_damage -----------------------------------------------------------------------------------------

def damage_input():
    def entry(key, value):
        return (False, key, value)

    return [
        "# Stored heads, to be damaged: every truncation, and every other value of every byte.",
        bytes_line(stored_form(Head(1500))),
        bytes_line(stored_form(Head(0, 0, b"", b""))),
        bytes_line(stored_form(Head(16384, 128, b"abc", b"v1", [entry(b"owner", b"prepress")]))),
        "# names that a change of one byte makes equal",
        bytes_line(stored_form(Head(1, 1, None, None, [entry(b"a", b"1"), entry(b"b", b"2"), entry(b"c", b"")]))),
        "# a known name",
        bytes_line(stored_form(Head(2**40, 2**42 - 1, pattern(64), None, [entry(b"Content-Type", b"font/sfnt")]))),
        "# the longest form",
        bytes_line(stored_form(longest())),
    ]


def damaged(form):
    """The truncations, and the changes of a single byte."""
    cut = [form[:n] for n in range(len(form))]
    changed = [form[:i] + bytes([b]) + form[i + 1:] for i in range(len(form)) for b in range(256) if b != form[i]]
    return cut, changed


def counted(forms):
    """How many load, how many of these are saved as other bytes than they were, how many are no head."""
    heads = [(form, loaded(form)) for form in forms]
    loads = [(form, stored_form(head)) for form, head in heads if head is not None]
    assert all(stored_form(loaded(again)) == again for _, again in loads)
    return len(loads), sum(again != form for form, again in loads), len(heads) - len(loads)


def damage_output(lines):
    out = []
    for number, line in enumerate(lines, 1):
        words = line.split()
        if not words or words[0].startswith("#"):
            continue
        form = bytes(int(w) for w in words[1:])
        out.append("line %d: %d bytes" % (number, len(form)))
        for name, forms in zip(("cut short", "changed"), damaged(form)):
            loads, other, no_head = counted(forms)
            out.append("    %-10s %d forms: %d load, %d of these are saved as other bytes, %d are no head"
                       % (name, len(forms), loads, other, no_head))
        out += ["    saved again, every one of them loads as the same bytes", ""]
    return out


def main(folder):
    name = os.path.basename(os.path.normpath(folder))
    makes = {"heads": (heads_input, heads_output), "head_damage": (damage_input, damage_output)}
    if name not in makes:
        sys.exit("no such cases: " + name)
    lines = ["# Written by tools/stored_heads.py, with the file stdout: do not edit."] + makes[name][0]()
    for file, content in (("stdin", lines), ("stdout", makes[name][1](lines))):
        with open(os.path.join(folder, file), "w", encoding="ascii") as f:
            f.write("\n".join(content) + "\n")


if __name__ == "__main__":
    if len(sys.argv) != 2:
        sys.exit(__doc__)
    main(sys.argv[1])
