#!/usr/bin/env python3
"""Bring the repository's own antt names to snake case, and its facts to camel case.

Run once at the top of a checkout, after the kit's porting script and before any edit by hand. A name is one that
stands in a signature, as a record field, or behind `as` in an import, and has a dash. Goals keep the names that the check
gives them. Comments keep their words, but for names between backquotes.
"""
import collections
import pathlib
import re
import sys

SIGNATURE = re.compile(r"^\s*(?:(?:abbrev|unfoldable|pub|record|data)\s+)*([^\s(){}\[\].,;:]+)\s+:\s+(?!(?:goal|need)\.)")
RECORD = re.compile(r"^\s*(?:pub\s+)?(?:record|data)\s+([^\s(){}\[\].,;:]+)\s")
BROUGHT_IN_AS = re.compile(r"\bas ([^\s(){}\[\].,;:]+)")
TOKEN = re.compile(r"[^\s(){}\[\].,;:`\"]+")
ROOT = pathlib.Path(".")


def antt_files():
    return sorted(p for folder in ("specs", "proofs") for p in ROOT.glob(f"crates/*/{folder}/**/*.antt"))


def text_files():
    files = antt_files() + sorted(ROOT.glob("crates/*/src/**/*.rt"))
    return files + sorted(ROOT.glob("crates/*/must-fail/*.edit"))


def pages():
    return sorted(ROOT.glob("docs/*.md")) + [ROOT / "README.md"]


def respelled(name):
    parts = name.split("-")
    if name[0].isupper():
        return "".join(part[0].upper() + part[1:] for part in parts)
    return "_".join(parts)


def own_names():
    names = {}
    for path in antt_files():
        for line in path.read_text().splitlines():
            match = SIGNATURE.match(line) or RECORD.match(line)
            if match and "-" in match.group(1) and not line.lstrip().startswith("--"):
                names[match.group(1)] = respelled(match.group(1))
    for path in antt_files() + sorted(ROOT.glob("crates/*/src/**/*.rt")):
        for line in path.read_text().splitlines():
            if line.lstrip().startswith(("use ", "ghost use ")):
                for name in BROUGHT_IN_AS.findall(line):
                    if "-" in name:
                        names[name] = respelled(name)
    return names


def comment_start(path):
    return "--" if path.suffix == ".antt" else "//"


def turned(text, names):
    return TOKEN.sub(lambda m: names.get(m.group(0), m.group(0)), text)


def turned_line(path, line, names):
    mark = comment_start(path)
    if path.suffix == ".md" or line.lstrip().startswith(mark):
        return re.sub(r"`[^`]*`", lambda m: turned(m.group(0), names), line)
    return turned(line, names)


def fallen_together(names):
    """Names that two things of one antt file would share. A definition may have the name of a function of src/."""
    found = []
    back = collections.defaultdict(set)
    for old, new in names.items():
        back[new].add(old)
    for new, olds in back.items():
        if len(olds) > 1:
            found.append(f"{sorted(olds)} all become {new}")
    for path in antt_files():
        lines = [line for line in path.read_text().splitlines() if not line.lstrip().startswith(("--", "use "))]
        tokens = set(TOKEN.findall("\n".join(lines)))
        for old, new in names.items():
            if old in tokens and new in tokens:
                found.append(f"{path}: {old} and {new}")
    return found


def main():
    names = own_names()
    found = fallen_together(names)
    for line in found:
        print(line)
    if found or "--look" in sys.argv:
        print(f"{len(names)} names, {len(found)} places to settle")
        return 1 if found else 0
    changed = 0
    for path in text_files() + pages():
        before = path.read_text()
        after = "".join(turned_line(path, line, names) for line in before.splitlines(keepends=True))
        if after != before:
            path.write_text(after)
            changed += 1
    print(f"{len(names)} names, {changed} files")
    return 0


sys.exit(main())
