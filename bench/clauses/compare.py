"""Compares the contracts of the public calls of a checkout with those of a commit: see bench/clauses.sh.

Usage: compare.py CHECKOUT COMMIT
"""
import io
import pathlib
import re
import subprocess
import sys
import tarfile

CALL = re.compile(r"^( *)(?:(pub(?:\([a-z]+\))?) )?(?:final )?(?:const )?fn (\w+)", re.M)
OWNER = re.compile(r"^(?:pub )?(?:unsafe )?(trait (\w+)|impl(?:<.*?>)? (?:[\w<>', ]+ for )?(\w+))", re.M)
BODY = re.compile(r"^(?! *(?:ensures|requires)\b).*[{;]$|(?<=[^ ]) *\{$", re.M)
CLAUSE = re.compile(r"^ *(ensures|requires)(?: (\w+))? \{", re.M)


def block(text, start):
    """What stands between the brace that opens at this place and the one that closes it."""
    depth = 0
    for place in range(start, len(text)):
        depth += {"{": 1, "}": -1}.get(text[place], 0)
        if depth == 0:
            return " ".join(text[start + 1:place].split()), place + 1
    raise ValueError(text[start:start + 80])


def clauses_of(text):
    """Each public call of a file, as its owner and name, with its clauses: (kind, name) and the text."""
    owners = [(found.start(), found[2] or found[3], bool(found[2])) for found in OWNER.finditer(text)]
    for call in CALL.finditer(text):
        inside = [(name, is_trait) for start, name, is_trait in owners if start < call.start()] if call[1] else []
        owner, is_trait = inside[-1] if inside else ("", False)
        if call[2] != "pub" and not is_trait:
            continue
        clauses, place = {}, call.end()
        while True:
            body = BODY.search(text, place)
            clause = CLAUSE.search(text, place)
            if not clause or body and body.start() < clause.start():
                break
            said, place = block(text, clause.end() - 1)
            clauses[clause[1], clause[2] or ""] = said
        yield (owner, call[3]), clauses


def calls_of(files):
    """The public calls of these files, each with the clauses of all of its name and owner."""
    calls = {}
    for text in files:
        for call, clauses in clauses_of(text):
            calls.setdefault(call, []).append(clauses)
    return calls


def files_now(top):
    return [file.read_text() for file in sorted(top.glob("crates/*/src/**/*.rt"))]


def files_at(top, commit):
    packed = subprocess.run(["git", "-C", top, "archive", commit, "crates"], stdout=subprocess.PIPE, check=True).stdout
    with tarfile.open(fileobj=io.BytesIO(packed)) as files:
        names = sorted(name for name in files.getnames() if re.fullmatch(r"crates/\w+/src/.*\.rt", name))
        return [files.extractfile(name).read().decode() for name in names]


def differences(old, new):
    """What the new calls say less, or ask more, than the old ones: a word, the call, the clause, and both texts."""
    for call, olds in old.items():
        name = "::".join(part for part in call if part)
        news = new.get(call, [])
        for clauses in olds:
            if clauses in news:
                continue
            near = max(news, key=lambda other: len({*clauses.values()} & {*other.values()}), default=None)
            if near is None:
                yield "gone", name, "the call", "", ""
                continue
            for (kind, clause), said in clauses.items():
                now = near.get((kind, clause))
                if kind == "ensures" and now != said and said not in near.values():
                    yield "gone" if now is None else "changed", name, f"ensures {clause}", said, now
            for (kind, clause), now in near.items():
                said = clauses.get((kind, clause))
                if kind == "requires" and now != said:
                    yield "asked", name, f"requires {clause}", said, now


def main():
    top = pathlib.Path(sys.argv[1])
    old, new = calls_of(files_at(top, sys.argv[2])), calls_of(files_now(top))
    found = list(differences(old, new))
    for word, call, clause, said, now in found:
        print(f"{word}: {call}: {clause}".rstrip())
        for sign, text in (("-", said), ("+", now)):
            if text:
                print(f"  {sign} {text}")
    count = lambda calls: (sum(map(len, calls.values())), sum(len(clauses) for all_of in calls.values() for clauses in all_of))
    print("{} calls with {} clauses before, {} with {} now".format(*count(old), *count(new))
          + "".join(f", {sum(word == one[0] for one in found)} {word}" for word in ("gone", "changed", "asked")))
    sys.exit(1 if found else 0)


main()
