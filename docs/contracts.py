#!/usr/bin/env python3
"""Usage: docs/contracts.py [--check]. Makes the second part of docs/CONTRACTS.md from the sources.

That part has of each library that is no test's what its root file says of it, and its public calls: the first sentence
of a call's comment, and the names of the clauses of its contract. The first part is written by hand. With --check nothing
is written, and where the page is stale the status is 1.
"""
import os
import re
import sys

ROOT = os.path.dirname(os.path.dirname(os.path.abspath(__file__)))
PAGE = os.path.join(ROOT, "docs", "CONTRACTS.md")
MARK = "<!-- From here on the page is made by docs/contracts.py. -->\n"
# Under this heading of crates.txt no crate is part of the product.
LEFT_OUT = ("Tests and measurements",)


class All:
    """Every name: what stands in a root file itself is passed on."""

    def __contains__(self, name):
        return True


ALL = All()

IMPL = re.compile(r"^(?:unsafe )?impl(?:<.*?>)? (?:(?P<trait>[\w:]+(?:<.*>)?) for )?(?P<type>\w+)")
TRAIT = re.compile(r"^pub trait (?P<type>\w+)")
CALL = re.compile(r"^(?P<indent> *)(?P<public>pub )?(?P<c>extern \"C\" )?fn (?P<name>\w+)")
CLAUSE = re.compile(r"^ *(?P<kind>requires|ensures)\*? (?P<name>\w+)? ?\{")


def libraries():
    """The names of the libraries of the product, in the order of crates.txt."""
    left_out = False
    for line in open(os.path.join(ROOT, "crates.txt")):
        if line.startswith("# "):
            left_out = line[2:].strip() in LEFT_OUT
        elif line.strip() and not left_out:
            name = re.match(r"\w+", line).group()
            if os.path.exists(os.path.join(ROOT, "crates", name, "src", "lib.rt")):
                yield name


def exported(root_file):
    """The names that a crate's root file passes on from its own modules, and what it says of the crate."""
    text = open(root_file).read()
    modules = set(re.findall(r"^(?:pub )?mod (\w+);", text, re.M))
    names = set()
    for module, listed in re.findall(r"^pub use (\w+)::(\{[^}]*\}|\w+);", text, re.M):
        if module in modules:
            names.update(re.findall(r"\w+", listed))
    head = re.match(r"(?:(?://! ?.*)\n)+", text).group()
    about = re.sub(r"\n+(?=Knows|Must|Promises)", "\n\n", head.replace("//! ", "").replace("//!", ""))
    return names, about.strip()


def sentence(comment):
    """The first sentence of a comment."""
    text = " ".join(comment)
    end = re.search(r"(?<!\be\.g)(?<!\bet al)\.(?= |$)", text)
    return text[: end.end()] if end else text


def calls(path, names):
    """The public calls of a file with what is said of each: its name, the first sentence, the names of its clauses."""
    block, comment, found = None, [], []
    lines = open(path).read().splitlines()
    for at, line in enumerate(lines):
        if line and not line[0].isspace():
            block = block_of(line) or (None if line == "}" else block)
        if line.lstrip().startswith("///"):
            comment.append(line.lstrip()[3:].strip())
            continue
        call = CALL.match(line)
        if call and comment:
            name = name_of(call, block, names)
            if name:
                found.append((name, sentence(comment), clauses(lines[at:], len(call.group("indent")))))
        if line.strip() and not line.lstrip().startswith("#["):
            comment = []
    return found


def block_of(line):
    """The type and the kind of the block that begins with this line: a trait, its impl, or an impl of the type's own."""
    trait, impl = TRAIT.match(line), IMPL.match(line)
    if trait:
        return trait.group("type"), "trait"
    return impl and (impl.group("type"), "impl" if impl.group("trait") else "own")


def name_of(call, block, names):
    """The name by which it is called from outside, none where it can't be: what the root file passes on, or C's."""
    owner, kind = block or (None, None)
    if owner:
        public = kind == "trait" or kind == "own" and call.group("public")
        return public and owner in names and f"{owner}::{call.group('name')}"
    return call.group("public") and (call.group("c") or call.group("name") in names) and call.group("name")


def clauses(lines, indent):
    """The names of the clauses of the call that begins with these lines; what its caller owes is asked."""
    listed = []
    for line in lines:
        clause = CLAUSE.match(line)
        if clause and clause.group("kind") == "requires":
            listed.append(f"asks {clause.group('name')}" if clause.group("name") else "asks")
        elif clause and clause.group("name"):
            listed.append(clause.group("name"))
        if line.rstrip() in (" " * indent + "{", " " * indent + "{}") or line.endswith(";"):
            break
        if line.endswith("{") and not clause:
            break
    return listed


def made():
    """The part of the page that is made."""
    parts = [MARK, "\n# Every call\n"]
    for name in libraries():
        folder = os.path.join(ROOT, "crates", name, "src")
        names, about = exported(os.path.join(folder, "lib.rt"))
        found = []
        for file in sorted(os.listdir(folder)):
            if file.endswith(".rt"):
                found += calls(os.path.join(folder, file), ALL if file == "lib.rt" else names)
        parts.append(f"\n## {name}\n\n{about}\n\n")
        for call, says, listed in found:
            tail = f" *{', '.join(listed)}*" if listed else ""
            parts.append(f"- `{call}`: {says}{tail}\n")
    return "".join(parts)


def main(check):
    page = open(PAGE).read()
    hand = page.split(MARK)[0].rstrip("\n") + "\n\n"
    new = hand + made()
    if check:
        if new != page:
            sys.exit("docs/CONTRACTS.md is stale: run docs/contracts.py")
        return
    open(PAGE, "w").write(new)


if __name__ == "__main__":
    if sys.argv[1:] not in ([], ["--check"]):
        sys.exit(__doc__)
    main(bool(sys.argv[1:]))
