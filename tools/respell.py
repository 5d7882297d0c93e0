#!/usr/bin/env python3
"""Respells the repository's own definitions, lemmas and fields: words in snake case, types and modules in camel case, a prime as an apostrophe.

usage: tools/respell.py          at the top: rewrites crates/ in place
       tools/respell.py list     prints each old name with its new one, and what would fall together

What is renamed is what specs/*.antt and proofs/*.antt declare: functions, lemmas, record fields and constructors. Names from Rattle sources, types
and what a single function's proof in proofs/F/ declares keep their spelling; must-fail/*.edit follow. Run it once, on what port.py made.
"""

import os
import re
import sys

WORD = re.compile(r"[^\s(){}.;,@\"«»\[\]\\]+")
DECLARED = re.compile(r"^(?:(?:abbrev|unfoldable|pub|private)\s+)*([^\s:{}()λ,;=.]+)\s+:\s")
TYPE = re.compile(r"^(?:pub\s+)?(?:record|data)\s+(\S+)")
FIELD = re.compile(r"^\s+(?:pub\s+)?([^\s:{}()λ,;=.]+)\s+:\s")
# what the rule would spell badly, or as a word that is there already
OTHERWISE = {
    "R-is": "read_back_is", "arithM": "arith_machine",
    "same_rank": "same_rank_lem", "at_gap": "at_gap_lem", "rows_right": "rows_right_lem",
}
# a name of one letter, which elsewhere is a variable: only where it comes from this module
ONE_LETTER = ("Rattle.laws.proofs.Machine", "Machine.antt", "R", "read_back")
ONLY = re.compile(r"[\w'′-]+")


def snake(name):
    name = name.replace("′", "'").replace("getD", "get_or")
    name = re.sub(r"(?<=[a-z0-9])(?=[A-Z])", "_", name)
    return name.replace("-", "_").lower()


def files(root, endings):
    for folder, folders, names in os.walk(os.path.join(root, "crates")):
        folders[:] = sorted(f for f in folders if f != "out")
        for name in sorted(names):
            if name.endswith(endings):
                yield os.path.join(folder, name)


def shared(path):
    """Whether the file is one of specs/ or of proofs/ itself, and not one function's proof."""
    return os.path.basename(os.path.dirname(path)) in ("specs", "proofs")


def declared(root):
    names, fields, types = {}, {}, set()
    for path in files(root, ".antt"):
        if not shared(path):
            continue
        inside = False
        for line in open(path, encoding="utf-8").read().split("\n"):
            if TYPE.match(line):
                types.add(TYPE.match(line).group(1))
                inside = True
            elif line and not line[0].isspace():
                inside = False
            m = FIELD.match(line) if inside else None
            if m:
                fields.setdefault(m.group(1), set()).add(path)
            # an item of a module with parameters is indented
            plain = line.strip() if not inside else line
            m = DECLARED.match(plain)
            if m and not line.startswith(("--", "use ", "module ")) and m.group(1) not in ("module", "use"):
                names.setdefault(m.group(1), set()).add(path)
    return names, fields, types


def table(root):
    names, fields, types = declared(root)
    to = {}
    for name in list(names) + list(fields) + ["arithM"]:
        if name in types or not ONLY.fullmatch(name) or name[0].isupper() and name not in OTHERWISE:
            continue
        new = OTHERWISE.get(name, snake(name))
        if new != name:
            to[name] = new
    # a lemma that would have its function's name gets _lem
    of_functions = {new for old, new in to.items() if "-" not in old} | set(names) | set(fields)
    for old, new in to.items():
        if "-" in old and old not in fields and new in of_functions:
            to[old] = new + "_lem"
    return to


def of_others(text, own):
    """The names that a file brings from modules of other repositories."""
    found = set()
    for module, listed in re.findall(r"(?m)use ([\w.·+]+?)\.\{([^}]*)\}", text):
        parts = module.split(".")
        if parts[0] != "Rattle" or parts[1] not in own:
            found |= set(re.split(r"[,\s]+", listed))
    return found


def turned(text, to, of_function, source):
    def one(m):
        word = m.group(0)
        if text[m.start() - 1:m.start()] == "." and of_function or source:
            # below a dot the proof of a function names its calls and loops, which never were lemmas; nor is a name of the code
            if word in to and ("-" not in word and word == word.lower()):
                return word
            if to.get(word, "").endswith("_lem"):
                return to[word][:-4]
        if word in to:
            return to[word]
        bare = word.rstrip(":?!")
        return to[bare] + word[len(bare):] if bare in to else word
    return WORD.sub(one, text)


def main(words):
    root = "."
    to = table(root)
    if words == ["list"]:
        for old, new in sorted(to.items()):
            print(old, new)
        back = {}
        for old, new in to.items():
            back.setdefault(new, []).append(old)
        for new, olds in sorted(back.items()):
            if len(olds) > 1:
                print("together:", new, olds)
        for path in files(root, (".antt", ".rt")):
            text = open(path, encoding="utf-8").read()
            if path.endswith(".rt"):
                text = "\n".join(re.findall(r"(?:ghost use|requires|ensures).*|^\s*(?:pub )?fn.*|^    \w+: .*", text, re.M))
            text = re.sub(r"(?m)^\s*(--|//).*$", "", text)
            found = {m.group(0) for m in WORD.finditer(text) if text[m.start() - 1:m.start()] != "."}
            for old, new in to.items():
                if old in found and new in found:
                    print("both:", path, old, new)
        return 0
    own = set(os.listdir(os.path.join(root, "crates")))
    for path in files(root, (".antt", ".rt", ".edit")):
        text = open(path, encoding="utf-8").read()
        here = {old: new for old, new in to.items() if old not in of_others(text, own)}
        module, home, letter, word = ONE_LETTER
        brought = re.search(re.escape(module) + r"\.\{([^}]*)\}", text)
        mine = path.endswith(home) or brought and letter in re.split(r",\s*", brought.group(1))
        new = turned(text, {**here, letter: word} if mine else here, not shared(path), path.endswith(".rt"))
        if new != text:
            with open(path, "w", encoding="utf-8") as it:
                it.write(new)
    return 0


if __name__ == "__main__":
    sys.exit(main(sys.argv[1:]))
