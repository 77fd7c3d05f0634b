#!/usr/bin/env python3
"""imports.py SEED COUNT DIR: writes COUNT import texts (RULES.md section 4) to DIR, valid and damaged."""
import os
import random
import sys

NAMES = [b"QUARTER", b"A1", b"A2", b"STATE"]
SKIPPED = [b"", b"", b"POD", b"DATE", b"A3", b"a1", b"A1 ", b" A2", b"Quarter", b"STATE\r", b"x", b"A11", b"\xc3\xa9"]


def energy(rng):
    k = rng.random()
    if k < 0.2:
        return rng.choice([0, 1, 9, 10, 99, 999, 1000, 9999, 10000, 99999, 100000, 999999, 1000000])
    if k < 0.6:
        return rng.randint(0, 5000)
    return rng.randint(0, 1000000)


def show(wh):
    return b"%d,%03d" % (wh // 1000, wh % 1000)


def rows_of(rng, curve=None):
    """96 rows (quarter, A1, A2, state), random or such that they form `curve` (ints and 'E')."""
    rows = []
    for q in range(96):
        if curve is None:
            flat = rng.random() < 0.3
            a1, a2 = (2000, 0) if flat else (energy(rng), energy(rng))
            state = b"E" if rng.random() < 0.1 else b"M"
        elif curve[q] == "E":
            a1, a2, state = energy(rng), energy(rng), b"E"
        else:
            v = curve[q]
            least = max(0, -v)  # a1 >= least, a2 = a1 + v <= 1000000
            most = 1000000 - max(0, v)
            a1 = least if rng.random() < 0.7 else rng.randint(least, most)
            a2, state = a1 + v, b"M"
        rows.append((b"%d" % q, show(a1), show(a2), state))
    return rows


def table(rng, curve=None):
    """Header and 96 rows as lists of fields."""
    extra = rng.choice([0, 0, 0, 1, 1, 2, 3, 5, 12])
    order = [0, 1, 2, 3] + [None] * extra
    if rng.random() < 0.75:
        rng.shuffle(order)
    header = [NAMES[k] if k is not None else rng.choice(SKIPPED) for k in order]
    filling = rng.choice([b"", b"x", b"0", b"IT001E00000001", b"0,5", b"\r", b"M"])
    out = [header]
    for row in rows_of(rng, curve):
        out.append([row[k] if k is not None else (filling if rng.random() < 0.8 else b"%d" % rng.randint(0, 99)) for k in order])
    return out


def join(lines, end=b"\n"):
    return b"".join(b";".join(fields) + end for fields in lines)


def valid(rng, curve=None):
    return join(table(rng, curve))


def column_of(lines, name):
    return lines[0].index(name)


def damaged(rng):
    lines = table(rng)
    text = join(lines)
    kind = rng.choice(["byte", "byte", "insert", "insert", "delete", "delete", "noline", "doubleline", "swap", "truncate",
                       "truncate", "namerepeat", "namemissing", "seventeen", "sixteen", "crlf", "zeros", "large", "extra",
                       "empty", "headeronly", "sep", "sep", "field", "field", "long", "fewer", "state", "quarter", "two"])
    at = rng.randrange(len(text))
    interesting = rng.choice([b";", b"\n", b",", b"0", b"1", b"9", b"M", b"E", b" ", b"\r", b"-", b"A", b"\x00", b"\xff"])
    head = len(join(lines[:1]))
    if rng.random() < 0.15:
        at = rng.randrange(head)
    if kind == "byte":
        return text[:at] + interesting + text[at + 1:]
    if kind == "insert":
        return text[:at] + interesting + text[at:]
    if kind == "delete":
        return text[:at] + text[at + rng.choice([1, 1, 1, 2, 5]):]
    if kind == "noline":
        del lines[rng.randrange(97)]
    elif kind == "doubleline":
        k = rng.randrange(97)
        lines.insert(k, list(lines[k]))
    elif kind == "swap":
        a, b = rng.randrange(97), rng.randrange(97)
        lines[a], lines[b] = lines[b], lines[a]
    elif kind == "truncate":
        if rng.random() < 0.3:
            at = len(text) - rng.randint(1, 8)
        if rng.random() < 0.2:
            at = rng.randrange(head + 1)
        return text[:at]
    elif kind == "namerepeat":
        name = rng.choice(NAMES)
        k = rng.randrange(len(lines[0]) + 1)
        if len(lines[0]) < 16 and rng.random() < 0.7:
            for fields in lines:
                fields.insert(min(k, len(fields)), b"")
            lines[0][k] = name
        else:
            lines[0][rng.randrange(len(lines[0]))] = name
    elif kind == "namemissing":
        name = rng.choice(NAMES)
        lines[0][column_of(lines, name)] = rng.choice([b"", b"X", name.lower(), name + b" ", name[:-1], name + name])
    elif kind in ("seventeen", "sixteen"):
        width = 17 if kind == "seventeen" else 16
        if rng.random() < 0.3:
            width += rng.choice([0, 1, 3])
        while len(lines[0]) < width:
            k = rng.randrange(len(lines[0]) + 1)
            for fields in lines:
                fields.insert(k, b"")
        if rng.random() < 0.2:
            lines[0][rng.randrange(len(lines[0]))] = rng.choice(NAMES)
    elif kind == "crlf":
        if rng.random() < 0.5 and len(lines[0]) < 16:
            for fields in lines:
                fields.append(b"")
        return join(lines, b"\r\n")
    elif kind in ("zeros", "large", "field", "state", "quarter"):
        row = rng.randrange(1, 97)
        if kind == "quarter":
            column, value = column_of(lines, b"QUARTER"), rng.choice([b"00", b"0", b"", b"96", b"095", b" 1", b"+1", b"-0", b"%02d" % (row - 1), b"%d" % row])
        elif kind == "state":
            column, value = column_of(lines, b"STATE"), rng.choice([b"", b"m", b"e", b"ME", b"MM", b"EE", b" M", b"M ", b"E\r", b"0", b"1", b"E", b"M"])
        else:
            column = column_of(lines, rng.choice([b"A1", b"A2"]))
            old = lines[row][column]
            value = {"zeros": rng.choice([b"0" + old, b"00" + old, b"00,500", b"01,000", b"0000,000"]),
                     "large": rng.choice([b"1000,001", b"1001,000", b"9999,999", b"10000,000", b"01000,000", b"1000,0000", b"99999999999999999999,000", b"4294967,296", b"18446744073709551,616"]),
                     "field": rng.choice([b"", b",", b",500", b"1,5", b"1,0000", b"1.000", b"-1,000", b"+1,000", b" 1,000", b"1,000 ", b"1", b"1000", b"1,", b"1,,000", b"1,00a", b"a,000", b"1,0,0", b"1000,000", b"0,000", b"\xb2,000"])}[kind]
            if rng.random() < 0.3:
                lines[row][column_of(lines, b"STATE")] = b"E"
        lines[row][column] = value
    elif kind == "extra":
        return text + rng.choice([b"\n", b" ", b"x", b"\r", b"\r\n", b"\x00", b";", b"96;", join(lines[96:97]), b"\x1a"])
    elif kind == "empty":
        return rng.choice([b"", b"\n", b";", b";\n", b"\n\n", b"x", b"\xef\xbb\xbf" + text])
    elif kind == "headeronly":
        return rng.choice([join(lines[:1]), join(lines[:1])[:-1], join(lines[:1]) + b"\n", join(lines[:2])])
    elif kind == "sep":
        row = rng.randrange(97)
        k = rng.choice([rng.randrange(len(lines[row])), len(lines[row]) - 1])
        part = rng.choice([b";", b"\n"])
        lines[row][k] = rng.choice([lines[row][k] + part, part + lines[row][k], lines[row][k][:1] + part + lines[row][k][1:]])
    elif kind == "long":
        # around the limit of 65,535 bytes
        if len(lines[0]) < 16:
            for fields in lines:
                fields.append(b"")
            lines[rng.randrange(1, 97) if rng.random() < 0.8 else 0][-1] = b"y" * (65535 - len(join(lines)) + rng.choice([-1, 0, 0, 1, 2, 500]))
            return join(lines)
        return text + b"y" * (65535 - len(text) + rng.choice([0, 1]))
    elif kind == "fewer":
        row = rng.randrange(97)
        del lines[row][rng.randrange(len(lines[row]))]
    elif kind == "two":
        t = bytearray(text)
        for _ in range(2):
            t[rng.randrange(len(t))] = rng.choice(b";\n,019ME ")
        return bytes(t)
    return join(lines)


def one(rng):
    return valid(rng) if rng.random() < 0.35 else damaged(rng)


def main():
    seed, count, directory = int(sys.argv[1]), int(sys.argv[2]), sys.argv[3]
    os.makedirs(directory, exist_ok=True)
    for k in range(count):
        rng = random.Random("import %d %d" % (seed, k))
        with open(os.path.join(directory, "%d-%05d.csv" % (seed, k)), "wb") as f:
            f.write(one(rng))


if __name__ == "__main__":
    main()
