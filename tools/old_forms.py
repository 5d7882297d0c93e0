#!/usr/bin/env python3
"""Places in crates/*/src/*.rt that have an older form of Rattle, by point of docs/DESIGN-PASS.md.

usage: tools/old_forms.py [COMMIT] [--list]

Reads the files of COMMIT (of the working tree where none is given) and prints how many places each
point has; --list names them. A place is a function or a type, found by its text:

1  an enum or struct of the shape of Option or Result: an enum none of whose variants is without
   fields while another one holds numbers, or that has a variant named for a failure; a struct with
   a field `number` beside others; a function that compares an operation's or a type's number, or
   gives a refusal's number, as a literal
2  a function whose clauses and body are those of another but for types, buffers' names and numbers
3  a `while` loop
4  a function whose body only compares fields, or only casts, or copies one buffer to another
5  a fact that stands in the `requires` of three or more functions of a crate, and a run of
   parameters that three or more functions have
6  a parameter that counts what is used of an array beside it
7  a function that chooses by a number which of three or more functions to call
"""
import collections, os, re, subprocess, sys

ROOT = os.path.dirname(os.path.dirname(os.path.abspath(__file__)))


def read_tree(commit):
    if commit:
        names = subprocess.run(["git", "-C", ROOT, "ls-tree", "-r", "--name-only", commit, "crates"],
                               capture_output=True, text=True, check=True).stdout.split()
        names = [n for n in names if re.match(r"crates/\w+/src/.*\.rt$", n)]
        return {n: subprocess.run(["git", "-C", ROOT, "show", f"{commit}:{n}"], capture_output=True,
                                  text=True, check=True).stdout for n in names}
    found = {}
    for crate in sorted(os.listdir(os.path.join(ROOT, "crates"))):
        src = os.path.join(ROOT, "crates", crate, "src")
        for base, _, files in os.walk(src):
            for f in files:
                if f.endswith(".rt"):
                    path = os.path.join(base, f)
                    found[os.path.relpath(path, ROOT)] = open(path, encoding="utf-8").read()
    return found


class Item:
    """A function, struct or enum: where it is, its head with the clauses, and its body."""

    def __init__(self, path, kind, name, head, body, before):
        self.path, self.kind, self.name, self.head, self.body, self.before = path, kind, name, head, body, before
        self.crate = path.split("/")[1]

    def where(self):
        return f"{self.crate}::{self.name}"


def items_of(path, text):
    text = "\n".join(re.sub(r"//.*$", "", line) for line in text.splitlines())
    out = []
    pattern = re.compile(r"^( *)(?:pub )?(?:const )?(?:extern \"C\" )?(fn|struct|enum) (\w+)", re.M)
    for m in pattern.finditer(text):
        indent, kind, name = m.groups()
        rest = text[m.start():]
        if kind == "fn":
            start = re.search(r"^" + indent + r"\{\s*$|\{\s*$", rest, re.M)
            end = re.search(r"^" + indent + r"\}\s*$", rest, re.M)
            if not start or not end:
                continue
            head, body = rest[:start.start()], rest[start.end():end.start()]
        else:
            end = re.search(r"^\}|;\s*$", rest, re.M)
            head, body = "", rest[:end.start()]
        out.append(Item(path, kind, name, head, body, text[:m.start()][-200:]))
    return out


def bare(text):
    text = re.sub(r"\b(i64|u8|u32|usize|i32|u64)\b", "T", text)
    text = re.sub(r"\(pos (\d+)\)|\bpos (\d+)", r"\1\2", text)
    text = re.sub(r"\b\d[\d_]*(?:i64|u8|u32|u64|usize)?\b", "N", text)
    text = re.sub(r"\b(\w*_)?(values|flags|cells|bytes|table|buffer)(_\w*)?\b", "B", text)
    text = re.sub(r"\bfn \w+", "fn F", text)
    text = re.sub(r"\bpub\b", "", text)
    return re.sub(r"\s+", " ", text).strip()


def point1(items):
    for i in items:
        if i.kind == "enum":
            variants = re.findall(r"^\s+(\w+)(\(.*\))?,", i.body, re.M)
            failing = {"Broken", "Stop", "Fails", "Misfits", "Breaks", "Nothing", "Gap", "Refused", "Malformed", "Different"}
            if any(v in failing for v, _ in variants):
                yield i.where()
        elif i.kind == "struct" and re.search(r"\bnumber: (u64|usize)", i.body) and "place" in i.body:
            yield i.where()
        elif i.kind == "fn":
            literal = re.search(r"\b(op|how|kind|dtype)\b\)? (==|!=|<|<=|>|>=) \d|\b\d+ (<=|<|==) \(?(op|how|kind)\b|match (op|t) \{\s*\d", i.body)
            refusal = re.search(r"refused\(\d+|return \d+;.*return \d+;|(Misfits|Breaks|Stop|Broken|Refused)\(\d+|ended\(\d+", i.body, re.S)
            if literal or (refusal and "-> Interval" not in i.head):
                yield i.where()


def point2(items):
    groups = collections.defaultdict(list)
    for i in items:
        if i.kind == "fn" and len(i.body.split()) > 8:
            groups[bare(i.head + "{" + i.body)].append(i)
        if i.kind == "struct" and ("(" in i.body or "{" in i.body):
            groups[bare(re.sub(r"struct \w+", "struct S", i.body))].append(i)
    # twins whose operation or callee is named after the buffer
    for group in groups.values():
        if len(group) > 1:
            for i in group:
                yield i.where()


def point3(items):
    for i in items:
        if i.kind == "fn":
            for _ in re.finditer(r"^\s*(while|loop)\b", i.body, re.M):
                yield i.where()


def point4(items):
    for i in items:
        if i.kind != "fn":
            continue
        body = re.sub(r"\s+", " ", i.body).strip()
        cast = re.fullmatch(r"\w+ as \w+", body) or re.fullmatch(
            r"(let \w+ = \w+\.\w+; )*\w+ \{ (\w+: [\w.]+ as \w+,? ?)+\}", body)
        copy = re.search(r"while \w+ < \w+(\.len\(\))? \{ (\w+)\[(\w+ \+ )?i\] = (\w+)\[i\];", body)
        same = re.search(r"(\w+\.(\w+) == \w+(\.\2)?\)?.*&.*){2}", body) and re.match(r"(same|is)_", i.name)
        if cast or copy or same:
            yield i.where()


def conjuncts(head):
    for clause in re.findall(r"requires(?: \w+)? \{(.*?)\}\s*(?=requires|ensures|$)", head, re.S):
        depth, part = 0, ""
        for ch in clause:
            depth += ch in "({["
            depth -= ch in ")}]"
            if ch == "×" and depth == 0:
                yield part.strip()
                part = ""
            else:
                part += ch
        yield part.strip()


def point5(items):
    facts, runs = collections.defaultdict(set), collections.defaultdict(set)
    for i in items:
        if i.kind != "fn":
            continue
        for fact in conjuncts(i.head):
            if len(fact) > 6:
                facts[i.crate, re.sub(r"\s+", " ", fact)].add(i.where())
        params = re.findall(r"(\w+): ([^,()]+(?:\[[^\]]*\])?)", re.sub(r"\s+", " ", i.head.split("requires")[0].split("ensures")[0].split("->")[0]))
        for a, b in zip(params, params[1:]):
            runs[i.crate, a, b].add(i.where())
    for (crate, fact), where in sorted(facts.items()):
        if len(where) >= 3:
            yield f"{crate}: fact in {len(where)}: {fact}"
    for (crate, a, b), where in sorted(runs.items()):
        if len(where) >= 3:
            yield f"{crate}: together in {len(where)}: {a[0]}: {a[1].strip()}, {b[0]}: {b[1].strip()}"


def point6(items):
    for i in items:
        if i.kind == "fn" and re.search(r"\w+: \[\w+; \w+\],\s*count: usize", i.head):
            yield i.where()
        if i.kind == "struct" and re.search(r"\[\w+; \w+\]", i.body) and re.search(r"count: usize", i.body):
            yield i.where()


def point7(items):
    for i in items:
        if i.kind == "fn" and re.search(r"\bop\b", i.body):
            by_number = len(re.findall(r"^\s+(?:\d+|_) => [\w:]+\(", i.body, re.M))
            by_tests = len(re.findall(r"if [^{]*\bop\b[^{]*\{\s*(?:return )?[\w:]+\(", i.body))
            if by_number >= 3 or by_tests >= 3:
                yield i.where()


def main():
    args = [a for a in sys.argv[1:] if not a.startswith("--")]
    tree = read_tree(args[0] if args else None)
    items = [i for path in sorted(tree) for i in items_of(path, tree[path])]
    for number, point in enumerate((point1, point2, point3, point4, point5, point6, point7), 1):
        places = list(point(items))
        print(f"{number}: {len(places)} places")
        if "--list" in sys.argv:
            for place, count in collections.Counter(places).items():
                print("    " + place + (f" ({count})" if count > 1 else ""))


if __name__ == "__main__":
    main()
