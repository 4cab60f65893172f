#!/usr/bin/env python3
"""Lists what stands twice: definitions of specs/ and functions of src/ that are the same up to the names of variables.

    twice.py [specs|src] [MOST]     both parts, and at most MOST groups of each (all of them if no number is given)

Two texts count as the same where they agree once the own name of each is left out and local names are numbered in
the order in which they occur. In specs/ a name is local if the file neither imports nor defines it; in src/ if it is a
plain word in lower case that is not called, is no field and stands in no path. Texts of a line or two are left out.
"""
import pathlib
import re
import sys
from collections import defaultdict

ROOT = pathlib.Path(__file__).resolve().parent.parent / "crates"
TOKEN = re.compile(r"""b?"(?:[^"\\]|\\.)*"|b?'(?:[^'\\]|\\.)'|[\w'][\w'-]*|\s+|.""", re.S)
KEPT = set("abbrev pub unfoldable data record where if then else let in module do Type fn mut for match return loop while "
           "break continue as ref use self true false Ok Err Some None".split())
LEAST = {"specs": 70, "src": 100}


def known(text):
    """The names that a file of specs/ imports or defines."""
    names = set(re.findall(r"^\s*(?:(?:abbrev|unfoldable|pub|data|record) )*([\w'-]+) .*:", text, re.M))
    for line in re.findall(r"^use (.*)$", text, re.M):
        names.update(re.findall(r"[\w'-]+", line))
    return names


def definitions(text):
    """The definitions of a file of specs/, each with its name: from its first line to the next blank line or comment."""
    for block in re.split(r"\n\s*\n|^--.*$", text, flags=re.M):
        found = re.match(r"\s*(?:abbrev |unfoldable )?(?:pub )?(?:abbrev |unfoldable |data |record )?(?:pub )?([\w'◌-]+)", block)
        if found and not block.lstrip().startswith("use "):
            yield found.group(1), block


def functions(text):
    """The functions of a file of src/, each with its name: the signature's first line, and the body without contracts."""
    for found in re.finditer(r"^( *)(?:pub )?fn (\w+).*?\n\1\{\n(.*?)\n\1\}", text, re.M | re.S):
        yield found.group(2), found.group(3)


def is_plain(_token, before, after):
    """A word of src/ that is not called, is no field and stands in no path."""
    return before not in (".", ":") and after not in ("(", "!", ":")


def numbered(name, block, is_local):
    order, words = {}, []
    tokens = [token for token in TOKEN.findall(block) if not token.isspace()]
    for i, token in enumerate(tokens):
        before, after = tokens[i - 1] if i else "", tokens[i + 1] if i + 1 < len(tokens) else ""
        if token == name:
            token = "@"
        elif re.match(r"[a-z_]", token) and token not in KEPT and is_local(token, before, after):
            token = f"${order.setdefault(token, len(order))}"
        words.append(token)
    return " ".join(words)


def groups(part):
    found = defaultdict(list)
    pattern = "*/specs/**/*.antt" if part == "specs" else "*/src/**/*.rt"
    for path in sorted(ROOT.glob(pattern)):
        text = path.read_text()
        names = known(text)
        for name, block in definitions(text) if part == "specs" else functions(text):
            key = numbered(name, block, (lambda *word: word[0] not in names) if part == "specs" else is_plain)
            if len(key) >= LEAST[part]:
                found[key].append(f"{path.relative_to(ROOT)}: {name}")
    return sorted((places for places in found.values() if len(places) > 1), key=len, reverse=True)


def main():
    parts = [word for word in sys.argv[1:] if not word.isdigit()] or ["specs", "src"]
    most = next((int(word) for word in sys.argv[1:] if word.isdigit()), None)
    for part in parts:
        all_groups = groups(part)
        print(f"{part}: {len(all_groups)} things stand in several places")
        for places in all_groups[:most]:
            print("  " + "\n    ".join(places))


main()
