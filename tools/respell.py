#!/usr/bin/env python3
"""Spells this repository's own definitions, lemmas and record fields in today's way, once, after the kit's port.py.

usage: tools/respell.py [--table FILE] [ROOT]

A name of specs/ or proofs/ that begins with a small letter gets snake case: `movedUp` is `moved_up`. A dash stays where it joins
the names of two definitions or follows a type, and is an underscore elsewhere. Names of Rust items, exported names, strings and
types keep their spelling, and so does a proof's own name for a goal. Where the new spelling stands in a file already, it gets
the name that `ENDINGS` gives. Prints each name that changed, with a tab between, into FILE.
"""

import collections
import os
import re
import sys

WORD = re.compile(r"[^\s(){}.;,@\"«»]+")
TOP = re.compile(r"^ *((?:(?:pub|abbrev|unfoldable|record|data) )*)([^\s(){}.;,@\"«»]+)(?=[^\n]*? :(?: |$))")
FIELD = re.compile(r"^ +(?:pub )?([^\s(){}.;,@\"«»]+) :(?: |$)")
USE = re.compile(r"\b(?:ghost )?use ([^\s;{]+?)\.\{([^}]*)\}")
CLAUSE = re.compile(r"\b(?:requires|ensures|ghost)\b[^{;\n]*\{")
# where the rule's spelling is another name's: old, new
ENDINGS = {
    "all-below": "all_below_lem",
    "area-bytes": "bytes_of_areas",
    "areas-closed": "areas_closed_lem",
    "audit-read": "audit_read_lem",
    "by-one-of": "by_one_of_lem",
    "change-read": "change_read_lem",
    "closed-up": "closed_up_lem",
    "difference-of": "difference_of_lem",
    "drop-marked": "marked_drop",
    "entries-closed": "entries_closed_lem",
    "entries-zero": "entries_zero_lem",
    "first-no": "first_no_lem",
    "first-wrong": "first_wrong_lem",
    "flag_at": "flag_at_lem",
    "found-asked": "found_asked_lem",
    "headerIs": "is_header",
    "held_next": "held_next_lem",
    "in-time": "at_or_before",
    "index-long": "long_index",
    "index-room": "room_in_index",
    "index-words": "words_of_index",
    "inner-node": "inner_node_lem",
    "is-at": "is_at_lem",
    "is-mark": "is_a_mark",
    "later_of": "later_of_lem",
    "left-of": "left_apart",
    "legal-next": "legal_next_lem",
    "legal-on": "still_legal",
    "log-long": "long_log",
    "net-before": "net_before_lem",
    "net-change": "change_between",
    "net-change-read": "net_change_read_lem",
    "net-noes": "net_noes_lem",
    "net-of": "net_of_lem",
    "not-begun": "not_begun_lem",
    "place-of": "place_of_lem",
    "position-of": "is_position",
    "record-bytes": "record_bytes_lem",
    "refused-among": "refused_among_lem",
    "rows-now": "rows_now_lem",
    "same-table": "one_and_the_same_table",
    "sum-in": "sum_in_lem",
    "table-bytes": "bytes_of_table",
    "table-long": "long_table",
    "table-of": "table_of_lem",
    "table_before": "table_before_lem",
    "time-of": "time_of_lem",
    "view-before": "view_before_lem",
    "wrong-marks": "wrong_marks_lem",
}


def crates(root):
    return sorted(c for c in os.listdir(os.path.join(root, "crates")) if os.path.isdir(os.path.join(root, "crates", c, "src")))


def files(root, ending):
    for c in crates(root):
        for folder, dirs, names in os.walk(os.path.join(root, "crates", c)):
            dirs[:] = sorted(d for d in dirs if d not in ("out", "must-fail"))
            for n in sorted(names):
                if n.endswith(ending):
                    yield os.path.join(folder, n)


def read(p):
    with open(p, encoding="utf-8") as f:
        return f.read()


def declared(text):
    """The names that a file declares: (name, modifiers) at the left, and the fields of its records and data."""
    tops, fields = {}, set()
    block, depth = False, 0
    for line in text.split("\n"):
        if not line.strip():
            continue
        if not line.startswith(" "):
            m = TOP.match(line)
            if m and m[2] not in ("use", "mod", "--", "unfolding", "abbrev", "pub"):
                tops.setdefault(m[2], m[1])
            block = bool(re.match(r"(?:pub )?(?:record|data) ", line))
            continue
        m = re.match(r"^( +)(?:pub )?(?:record|data) ", line)
        if m:
            block, depth = True, len(m[1])
            ts = TOP.match(line)
            tops.setdefault(ts[2], ts[1]) if ts else None
            continue
        if block is True and depth and len(line) - len(line.lstrip(" ")) <= depth:
            block, depth = False, 0
        if block:
            m = FIELD.match(line)
            if m and m[1] != "--":
                fields.add(m[1])
        elif re.match(r"^ +((?:abbrev |unfoldable )?pub |(?:abbrev |unfoldable )?[a-z]+[A-Z]\w* :)", line):
            m = TOP.match(line)
            if m and m[2] not in ("use", "mod", "--", "pub"):
                tops.setdefault(m[2], m[1])
    return tops, fields


def snake(piece):
    return re.sub(r"(?<=[a-z0-9₀-₉'])([A-Z])", lambda m: "_" + m[1].lower(), piece) if re.match(r"[a-z]", piece) else piece


def spelled(name, words, plain):
    if name in ENDINGS:
        return ENDINGS[name]
    pieces = [snake(p) for p in name.split("-")]
    out = pieces[0]
    for a, b in zip(pieces, pieces[1:]):
        keep = not plain and ((a in words and b in words) or a[:1].isupper() or b[:1].isupper() or not re.match(r"[a-z]", a) or not re.match(r"[a-z]", b))
        out += ("-" if keep else "_") + b
    return out


def main():
    args = sys.argv[1:]
    table_to = None
    if "--table" in args:
        at = args.index("--table")
        table_to = args[at + 1]
        del args[at : at + 2]
    root = args[0] if args else "."
    own = set(crates(root))
    tops, fields, where = {}, set(), collections.defaultdict(set)
    texts = {p: read(p) for p in files(root, ".antt")}
    sources = {p: read(p) for p in files(root, ".rt")}
    for p, t in texts.items():
        ts, fs = declared(t)
        if "/proofs/" in p and os.path.basename(p) == "Proof.antt":
            ts, fs = {n: m for n, m in ts.items() if re.match(r"[a-z]+[A-Z]\w*$", n)}, set()
        for n, mods in ts.items():
            is_def = "abbrev" in mods or "unfoldable" in mods or "record" in mods or "data" in mods
            tops[n] = tops.get(n, False) or is_def
            where[n].add(p)
        fields |= fs
    words = {snake(n) for n, d in tops.items() if d} | set("append length take drop map reverse filter put zeros part cons nil".split())
    table = {}
    for n, is_def in tops.items():
        if re.match(r"[a-z]", n):
            new = spelled(n, words, is_def)
            if new != n:
                table[n] = new
    for n in fields:
        if re.match(r"[a-z]", n):
            new = spelled(n, words, True)
            if new != n:
                if table.get(n, new) != new:
                    table[n] = new
                table[n] = new
    # names that fall together
    bad = 0
    news = collections.defaultdict(set)
    for o, n in table.items():
        news[n].add(o)
    for n, os_ in sorted(news.items()):
        if len(os_) > 1 or n in tops or n in fields:
            print(f"meets: {sorted(os_)} -> {n}" + (" (a name of its own)" if n in tops or n in fields else ""), file=sys.stderr)

    def theirs(text):
        """Names that the file brings in from a library."""
        out = set()
        for path, items in USE.findall(text):
            steps = path.split(".")
            if steps[0] == "Rattle" and len(steps) > 1 and steps[1] in own:
                continue
            out |= set(WORD.findall(items))
        return out

    def clash(p, text, kept):
        found = {w for w in WORD.findall(re.sub(r"--[^\n]*|//[^\n]*", "", text))}
        free = {w for w in re.findall(r"(?<![\w.'-])[^\s(){}.;,@\"«»]+", re.sub(r"--[^\n]*|//[^\n]*", "", text))}
        for o in sorted(found):
            if o in table and o not in kept and table[o] in free and table[o] not in kept:
                print(f"clash: {p}: {o} -> {table[o]}", file=sys.stderr)

    def turn(text, kept):
        def code(t):
            return WORD.sub(lambda m: m[0] if m[0] in kept else table.get(m[0], m[0]), t)

        def comment(t):
            def one(m):
                w = m[0]
                return table.get(w, w) if w not in kept and (re.search(r"[a-z][A-Z]", w)) else w

            t = re.sub(r"`([^`\n]+)`", lambda m: "`" + code(m[1]) + "`", t)
            return re.sub(r"[^\s(){}.;,@\"«»`]+", one, t)

        out, at = [], 0
        for m in re.finditer(r"\"(?:[^\"\\\n]|\\.)*\"|--[^\n]*|//[^\n]*", text):
            out.append(code(text[at : m.start()]))
            s = m[0]
            out.append(s if s.startswith('"') else comment(s))
            at = m.end()
        out.append(code(text[at:]))
        return "".join(out)

    for p, t in {**texts, **sources}.items():
        kept = theirs(t)
        if os.path.basename(p) == "Proof.antt":
            ts, _ = declared(t)
            kept |= {n for n in ts if not re.match(r"[a-z]+[A-Z]\w*$", n)}
        if p.endswith(".rt"):
            kept |= {n for n in table if re.fullmatch(r"[a-z0-9_]+", n)}  # these may be functions
        clash(p, t, kept)
        new = turn(t, kept)
        if new != t:
            with open(p, "w", encoding="utf-8") as f:
                f.write(new)
    if table_to:
        with open(table_to, "w", encoding="utf-8") as f:
            for o in sorted(table):
                f.write(f"{o}\t{table[o]}\n")


main()
