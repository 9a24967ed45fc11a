#!/usr/bin/env python3
"""Brings this repository's own definitions and lemmas to the spelling of today's Rattle: words in snake case, a dash behind a type.

usage: respell.py [--check]

rowBound becomes row_bound, zero-sum becomes zero_sum, All·map becomes All-map. What turns is what the files of specs/ and proofs/ declare, and what a
`ghost use` calls by another name; types, modules, and what src/ declares stay, and so do the names that Rattle makes of a function (declared at a type
of its Tie). A definition that would have the name of a function of src/ gets _lem behind it, and so does a law that would have the name of a
definition; another name that would meet one in some file stays in all of them, and is printed. It was run once, after port.py.
"""
import collections
import os
import re
import sys

ROOT = os.path.join(os.path.dirname(os.path.abspath(__file__)), "..", "crates")
WORD = re.compile(r'[^\s(){}.;,@"«»]+')
DECLARED = re.compile(r"(?m)^ *(?:(?:pub|abbrev|unfoldable|record|data) +)*([^\s(){}.;,@\"«»]+)(?: *[({][^\n]*?[)}])* :(?= )(?! *(?:tie|goal|given)\.)")
# Laws that have the name that a definition gets, and names that no rule gives.
BY_HAND = {
    "fitAll": "fit_all", "fit_all": "fit_all_lem",
    "roomIn": "room_in", "room_in": "room_in_lem",
    "fromFirst": "from_first", "from_first": "from_first_lem",
    "splitAt": "split_at", "split_at": "split_at_lem",
    "zeroByte": "zero_byte",
    "selfInverse": "is_self_inverse",
    "All·getD": "All-get_or",
}
USE = re.compile(r"(?m)^ *(?:pub |ghost )?use ([^\s;{]+?)\.?\{([^}]*)\}")
ALIAS = re.compile(r"[\w◌⊕⊻'·-]+ as ([^\s,};]+)")


def respelled(name):
    """The name as today's Rattle spells it."""
    if re.match(r"[A-Z]", name):
        head, dot, rest = name.partition("·")
        return head + "-" + respelled(rest) if dot else name
    words = re.sub(r"(?<=[a-z0-9])[A-Z]", lambda m: "_" + m[0].lower(), name.replace("′", "'"))
    return re.sub(r"(?<=[\w'])[-·](?=\w)", "_", words)


def own_path(path):
    """Whether a path of a `use` line leads into this repository's crates."""
    steps = path.split(".")
    return steps[0] == "Rattle" and steps[1:2] and os.path.isdir(os.path.join(ROOT, steps[1]))


def files():
    for folder, dirs, names in os.walk(ROOT):
        dirs[:] = sorted(d for d in dirs if d != "out")
        for name in sorted(names):
            if name.endswith((".antt", ".rt")):
                yield os.path.join(folder, name)


def main():
    texts = {path: open(path, encoding="utf-8").read() for path in files()}
    words = {path: set(WORD.findall(text)) for path, text in texts.items()}
    declared = set()
    for path, text in texts.items():
        found = DECLARED.findall(text) if path.endswith(".antt") else []
        declared.update(found, ALIAS.findall(text))
    of_source = {it for path, text in texts.items() if path.endswith(".rt") for it in re.findall(r"\b(?:fn|const|static|struct|enum|mod) (\w+)", text)}
    of_library = {name.split(" as ")[0].strip() for text in texts.values() for path, names in USE.findall(text) if not own_path(path) for name in names.split(",")}
    table = {it: respelled(it) for it in declared - of_source - of_library if respelled(it) != it and re.match(r"[^\W\d]", it)}
    table.update(BY_HAND)
    # a definition that would have the name of a function of src/, and a law that would have the name of a definition
    for old, new in list(table.items()):
        if "-" not in old and old not in BY_HAND and new in of_source and any(old in here and new in here for here in words.values()):
            table[old] = new + "_lem"
    back = collections.defaultdict(set)
    for old, new in table.items():
        back[new].add(old)
    for new, olds in back.items():
        for old in olds:
            if len(olds) > 1 and "-" in old:
                table[old] = new + "_lem"
    staying = {}
    for path, here in words.items():
        for old in here & set(table):
            if table[old] in here and table[old] not in table and old not in BY_HAND:
                staying[old] = f"{table[old]} stands in {os.path.relpath(path, ROOT)}"
    for old in staying:
        del table[old]
    for old, why in sorted(staying.items()):
        print(f"stays: {old}: {why}")
    print(f"{len(table)} names turn")
    if "--check" in sys.argv:
        return
    for path, text in texts.items():
        new = WORD.sub(lambda m: table.get(m[0], m[0]), text)
        if new != text:
            with open(path, "w", encoding="utf-8") as f:
                f.write(new)
    with open("/tmp/respelled.tsv", "w", encoding="utf-8") as f:
        f.writelines(f"{old}\t{new}\n" for old, new in sorted(table.items()))


main()
