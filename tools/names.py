#!/usr/bin/env python3
"""Counts which files of a crate hold one thing under one name.

    names.py              the figures of all crates in one sentence
    names.py CRATE..      for these crates, the files without a fellow
    names.py --write      puts the sentence into docs/ARCHITECTURE.md, in place of the one that stands there

A thing has its code in src/x_y.rt, its definition in specs/XY.antt and its proofs in the folder proofs/x_y or in
proofs/XY.antt. The roots (lib, main, Lib) and tests are not counted.
"""
import pathlib
import re
import sys

ROOT = pathlib.Path(__file__).resolve().parent.parent
PAGE = ROOT / "docs" / "ARCHITECTURE.md"
ROOTS = {"lib", "main", "Lib"}


def stems(folder, pattern):
    return {path.stem for path in folder.glob(pattern) if not path.stem.endswith("tests")} - ROOTS


def spec_name(name):
    """The name in specs/ of a file of src/: x_y is XY."""
    return "".join(word.capitalize() for word in name.split("_"))


def names(crate):
    """The files of src/ by name, those with a definition, those with proofs; the files of specs/ without code."""
    code = stems(crate / "src", "*.rt")
    specs = stems(crate / "specs", "*.antt")
    proofs = stems(crate / "proofs", "*")
    defined = {name for name in code if spec_name(name) in specs}
    proved = {name for name in code if name in proofs or spec_name(name) in proofs}
    return code, defined, proved, specs - {spec_name(name) for name in code}


def sentence():
    crates = [path for path in sorted((ROOT / "crates").iterdir()) if (path / "src").is_dir()]
    counted = [names(crate) for crate in crates]
    code, defined, proved, alone = (sum(len(one[i]) for one in counted) for i in range(4))
    all_three = sum(len(one[1] & one[2]) for one in counted)
    return (f"Of {code} files of `src/` in {len(crates)} crates, {defined} have a file of `specs/` of their name, "
            f"{proved} have proofs under it, and {all_three} have both; {alone} files of `specs/` have no file of `src/`.")


def write():
    text, count = re.subn(r"^Of \d+ files of `src/` in .*$", sentence(), PAGE.read_text(), flags=re.M)
    if count != 1:
        sys.exit(f"{PAGE}: the sentence stands there {count} times, and not once")
    PAGE.write_text(text)


def tell(crate):
    code, defined, _, alone = names(ROOT / "crates" / crate)
    print(f"{crate}: in src/ alone: {', '.join(sorted(code - defined))}; in specs/ alone: {', '.join(sorted(alone))}")


def main():
    words = sys.argv[1:]
    if words == ["--write"]:
        write()
    elif words:
        for crate in words:
            tell(crate)
    else:
        print(sentence())


main()
