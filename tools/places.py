#!/usr/bin/env python3
"""Lists the places in crates/*/src that may be written by a newer form of the language, point by point of docs/DESIGN-PASS.md.

usage: tools/places.py [-v] [FOLDER]    (the repository's top; -v prints each place)
"""
import collections
import glob
import re
import sys

PARAMETER = re.compile(r"(\w+): ([^,()]+(?:\([^)]*\))?)")


def functions(path):
    """Name, parameters, clauses and body of each function of a file."""
    text = open(path).read()
    for m in re.finditer(r"(?m)^( *)(?:pub )?(?:extern \"C\" )?fn (\w+)(<[^>]*>)?\(", text):
        indent = m.group(1)
        depth, at = 1, m.end()
        while depth:
            depth += {"(": 1, ")": -1}.get(text[at], 0)
            at += 1
        parameters = text[m.end() : at - 1]
        start = text.find("\n" + indent + "{", at)
        inline = text.find(" {\n", at)
        if start < 0 or 0 <= inline < start and "\n" not in text[at:inline]:
            start = inline
        end = text.find("\n" + indent + "}", start + 1)
        yield m.group(2), parameters, text[at:start], text[start:end], text.count("\n", 0, m.start()) + 1


def loops(path):
    """Loops that count an index: each while, and each range whose variable is an index in the body."""
    lines = open(path).read().split("\n")
    for number, line in enumerate(lines, 1):
        if re.match(r"\s*while ", line):
            yield number, line.strip()
        m = re.match(r"(\s*)for (\w+) in .*\.\..* \{$", line)
        if m:
            body = []
            for later in lines[number:]:
                if later.startswith(m.group(1) + "}"):
                    break
                body.append(later)
            if re.search(r"\[[^]]*\b%s\b[^]]*\]" % m.group(2), "\n".join(body)):
                yield number, line.strip()


def shape(body):
    """A body without its names' case of width, its numbers and its constants."""
    body = re.sub(r"//[^\n]*", "", body)
    body = re.sub(r"\b(0x[0-9a-fA-F_]+|[0-9_]+)\b", "0", body)
    body = re.sub(r"\b[A-Z][A-Z0-9_]+\b", "C", body)
    body = re.sub(r"\b(u8|u16|u32|u64|usize)\b", "u", body)
    body = re.sub(r"_(u8|u16|u32|u64|usize)\b", "_u", body)
    body = re.sub(r"\b[a-z]\w*\b", "x", body)
    return re.sub(r"\s+", " ", body)


def by_hand(path):
    """Equality, order, copying, conversion, rotations and sums that the library has."""
    names = (
        r"copy|zero|equal|least|larger|smaller_of|saturating_sub|rotate_left|rotate_right|rotl|add3|write|clear|"
        r"byte_or_zero|padded|load_u\d+(?:_be|_le)?|store_u\d+|write_u\d+_[bl]e|read_u\d+_[bl]e|number|added|numbered|"
        r"kind|first|second|subkey_words|subkey_bytes|words_of|salt_words|one_more|made|xor_into|read_full|same"
    )
    for name, _, _, _, line in functions(path):
        if re.fullmatch(names, name):
            yield line, "fn " + name
    for number, line in enumerate(open(path), 1):
        for m in re.finditer(r"std::num::\w+", line):
            yield number, m.group(0)


def main():
    arguments = [a for a in sys.argv[1:] if a != "-v"]
    verbose = "-v" in sys.argv
    top = arguments[0] if arguments else "."
    paths = sorted(glob.glob(top + "/crates/*/src/**/*.rt", recursive=True))
    found = collections.OrderedDict()

    def place(point, path, line, text):
        found.setdefault(point, []).append("%s:%d: %s" % (path[len(top) + 8 :], line, text))

    facts, groups, shapes = (collections.defaultdict(list) for _ in range(3))
    for path in paths:
        for number, line in enumerate(open(path), 1):
            if re.match(r"(pub )?enum ", line):
                place("1, enums", path, number, line.strip())
            if re.match(r"\s*// .*(\b0 where|\bor 0\b|else 0\b|0 past|, or SE?S?\w+S\.|or the count|[Ff]alse[,:])", line):
                place("1, numbers and flags for none", path, number, line.strip())
            if re.search(r"get_or \(", line):
                place("1, numbers and flags for none", path, number, line.strip())
            if re.search(r"\bfn\(|\bdyn\b|\[fn", line):
                place("7, tables of functions", path, number, line.strip())
        for number, text in loops(path):
            place("3, loops", path, number, text)
        for number, text in by_hand(path):
            place("4, by hand", path, number, text)
        for name, parameters, clauses, body, number in functions(path):
            if body.count("\n") > 2:
                shapes[shape(body)].append("%s:%d %s" % (path[len(top) + 8 :], number, name))
            crate = path[len(top) + 8 :].split("/")[0]
            for clause in re.findall(r"requires(?: \w+)? \{ ([^}]*) \}", clauses):
                facts[re.sub(r"\.(now|old)", "", re.sub(r"\s+", " ", clause))].append(crate + "::" + name)
            pairs = [p.group(0).strip() for p in PARAMETER.finditer(re.sub(r"\s+", " ", parameters))]
            for k in range(len(pairs) - 2):
                groups[", ".join(pairs[k : k + 3])].append(crate + "::" + name)
            if re.search(r"\b(n|len|k|room|due|size|count): usize", parameters) and re.search(r"\[u(8|64)\]", parameters):
                place("6, a buffer with a number of bytes beside it", path, number, name)
    for bodies in shapes.values():
        if len(bodies) > 1:
            found.setdefault("2, bodies of one shape", []).extend([" = ".join(bodies)])
    for fact, where in facts.items():
        if len(where) > 2:
            found.setdefault("5, facts in three or more contracts", []).append("%d x %s: %s" % (len(where), fact, " ".join(where)))
    for group, where in groups.items():
        if len(where) > 2:
            found.setdefault("5, three parameters in three or more functions", []).append("%d x %s: %s" % (len(where), group, " ".join(where)))
    for point in sorted(found):
        print("%s: %d" % (point, len(found[point])))
        if verbose:
            for text in found[point]:
                print("    " + text)


main()
