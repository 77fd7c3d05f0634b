#!/usr/bin/env python3
"""Respells the repository's own definitions, lemmas, fields and proof modules: words in snake case, types and modules in camel case.

usage: tools/respell.py [--list]      at the top of the repository, once, after the toolchain's own upgrade script
Names of src/ (functions, types, fields), names that the prover makes, and names of other libraries stay as they are.
"""

import collections
import os
import re
import sys

TOKEN = re.compile(r"[A-Za-z_«][A-Za-z0-9_'»]*(?:-[A-Za-z0-9_'»]+)*")
DECLARED = re.compile(r"^(\s*)((?:abbrev |pub |record |data |unfoldable )*)([A-Za-z_][\w']*(?:-[\w']+)*)((?: [^:]*)?) : (.*)")
USED = re.compile(r"\buse ([\w.'\-·]+?)\.\{([^}]*)\}")
# what the rule alone would let fall together, or spell badly
CHOSEN = {
    "Bank-laws": "JoinedLaws",
    "Rounding-laws": "RoundedLaws",
    "allBy-getD": "all_by_get_or",
    "getD-listed": "get_or_listed",
    "getD-upto": "get_or_upto",
    "can-settle": "can_settle_lem",
    "cut-under": "cut_under_lem",
    "date-from": "date_from_lem",
    "date-of": "date_of_lem",
    "drawnIn": "drawn_of",
    "in-month": "in_month_lem",
    "injectedIn": "injected_of",
    "is-day": "is_day_lem",
    "is-of": "is_of_lem",
    "june-figures": "june_figures_lem",
    "register-answer": "register_answer_lem",
    "word_fits": "word_fits_lem",
}


def snake(name):
    out = re.sub(r"(?<=[a-z0-9])(?=[A-Z])", "_", name).replace("-", "_").lower()
    return out


def camel(name):
    return "".join(part[:1].upper() + part[1:] for part in re.split(r"[-]", name))


def files(root, ends):
    for folder, dirs, names in os.walk(os.path.join(root, "crates")):
        dirs[:] = sorted(d for d in dirs if d != "out")
        for name in sorted(names):
            if name.endswith(ends):
                yield os.path.join(folder, name)


def read(path):
    with open(path, encoding="utf-8") as f:
        return f.read()


def strip_comment(line):
    at = line.find("--")
    while at >= 0 and (at > 0 and line[at - 1] not in " \t("):
        at = line.find("--", at + 2)
    return line if at < 0 else line[:at]


def is_made(path, name, rest):
    """A name that the prover makes: a goal, an invariant, a measure."""
    return bool(re.search(r"\b(goal|given)\." + re.escape(name) + r"(?![\w'-])", rest)) or bool(re.match(r"(invariant|decreases)-", name))


def gather(root):
    """Own names that are declared, names that are made or come from elsewhere, all names that are used."""
    own, kept, seen = collections.defaultdict(set), set(), set()
    crates = set(os.listdir(os.path.join(root, "crates")))
    for path in files(root, ".antt"):
        text = read(path)
        for path_of, names in USED.findall(text):
            parts = path_of.split(".")
            for alias in re.findall(r" as ([\w'-]+)", names):
                own[alias].add(os.path.relpath(path, root))
            mine = parts[0] == "Rattle" and len(parts) > 1 and parts[1] in crates
            for name in re.split(r",\s*", names):
                for word in name.split(" as ")[:1]:
                    if not mine or ".Goals" in path_of or ".Context" in path_of or ".Given" in path_of:
                        kept.add(word.strip())
        for line in text.split("\n"):
            line = strip_comment(line)
            seen |= set(TOKEN.findall(line))
            m = DECLARED.match(line)
            if m and m[3] not in ("let", "in", "use"):
                if is_made(path, m[3], m[5]):
                    kept.add(m[3])
                else:
                    own[m[3]].add(os.path.relpath(path, root))
    for path in files(root, ".rt"):
        for path_of, names in USED.findall(read(path)):
            parts = path_of.split(".")
            for alias in re.findall(r" as ([\w'-]+)", names):
                own[alias].add(os.path.relpath(path, root))
            if not (parts[0] == "Rattle" and len(parts) > 1 and parts[1] in crates):
                kept |= {w.strip() for n in re.split(r",\s*", names) for w in n.split(" as ")[:1]}
    return own, kept, seen


def binders(root):
    """Local names in lower camel case: what stands in a bracket before a colon, after λ, or before = in a let."""
    out = set()
    for path in files(root, ".antt"):
        for line in read(path).split("\n"):
            line = strip_comment(line)
            for m in re.finditer(r"[({λ]\s*((?:[\w']+\s+)*[\w']+)\s*(?::|\.)", line):
                out |= set(m[1].split())
            for m in re.finditer(r"\blet ([\w'\-]+)\b", line):
                out.add(m[1])
    return out


def mapping(root):
    own, kept, seen = gather(root)
    local = {n for n in binders(root) if re.match(r"[a-z][a-z0-9]*[A-Z]", n)}
    turned = {}
    for name in sorted(set(own) | local):
        if name in kept:
            continue
        if name in CHOSEN:
            turned[name] = CHOSEN[name]
        elif name[0].isupper():
            if "-" in name:
                turned[name] = camel(name)
        elif "-" in name or re.search(r"[A-Z]", name):
            turned[name] = snake(name)
    return own, kept, seen, turned


def modules(root):
    """Proof and definition files with a dash in their name."""
    out = {}
    for path in files(root, ".antt"):
        base = os.path.basename(path)[:-5]
        if "-" in base:
            out[base] = CHOSEN.get(base, camel(base))
    return out


def fields(root):
    """Fields of the repository's own records."""
    out = set()
    for path in files(root, ".antt"):
        if "/specs/declared/" not in path:
            out |= set(re.findall(r"^  pub ([\w'-]+) :", read(path), re.M))
    return out


def spelled(m, names, members):
    name, text = m[0], m.string
    if m.start() and text[m.start() - 1] == ".":
        if name[0].isupper():
            return names.get(name, name)
        return snake(name) if name in members and name in names else name
    return names.get(name, name)


def turn(text, names, members, comment):
    out = []
    for line in text.split("\n"):
        at = line.find(comment)
        head, tail = line, ""
        if at >= 0 and (at == 0 or line[at - 1] in " \t("):
            head, tail = line[:at], line[at:]
        out.append(TOKEN.sub(lambda m: spelled(m, names, members), head) + tail)
    return "\n".join(out)


def main():
    root = os.getcwd()
    own, kept, seen, turned = mapping(root)
    names, members = dict(turned) | modules(root), fields(root)
    if "--list" in sys.argv:
        back = collections.defaultdict(set)
        for old, new in names.items():
            back[new].add(old)
        for new, olds in sorted(back.items()):
            together = set(olds)
            if new in seen | kept or new in own:
                together.add(new)
            if len(together) > 1:
                print("together:", new, sorted(together), sorted(set().union(*(own.get(o, set()) for o in together)))[:8])
        for old, new in sorted(names.items()):
            print(old, "->", new)
        return
    for path in files(root, (".antt", ".rt")):
        text = read(path)
        new = turn(text, names, members, "--" if path.endswith(".antt") else "//")
        if new != text:
            with open(path, "w", encoding="utf-8") as f:
                f.write(new)
    for path in list(files(root, ".antt")):
        base = os.path.basename(path)[:-5]
        if base in names and "-" in base:
            os.rename(path, os.path.join(os.path.dirname(path), names[base] + ".antt"))


main()
