#!/usr/bin/env python3
"""places.py [--list] [COMMIT]: counts in crates/*/src what older forms are left, as docs/DESIGN-PASS.md lists them,
in the checkout or at a commit; --list prints each place."""
import re
import subprocess
import sys
from collections import defaultdict

ROOT = subprocess.run(["git", "rev-parse", "--show-toplevel"], capture_output=True, text=True).stdout.strip()


def sources(commit):
    """The Rattle files by name, with their lines."""
    def run(*words):
        return subprocess.run(["git", "-C", ROOT, *words], capture_output=True, text=True).stdout
    names = run("ls-tree", "-r", "--name-only", commit, "crates") if commit else run("ls-files", "-co", "--exclude-standard", "crates")
    found = {}
    for name in sorted(set(names.split("\n"))):
        if re.fullmatch(r"crates/\w+/src/.*\.rt", name):
            text = run("show", f"{commit}:{name}") if commit else open(f"{ROOT}/{name}").read()
            found[name[len("crates/"):]] = text.split("\n")
    return found


def lines_like(files, pattern):
    return [f"{name}:{i + 1}: {line.strip()}" for name, lines in files.items() for i, line in enumerate(lines) if re.search(pattern, line)]


def items(files, kind):
    """Each function, struct or enum: its place, name, contract and body as one text."""
    for name, lines in files.items():
        for i, line in enumerate(lines):
            found = re.match(r"(\s*)(?:pub )?(?:extern \"C\" )?" + kind + r" (\w+)", line)
            if found:
                end = i
                while end < len(lines) and not re.match(re.escape(found[1]) + r"[})]?}$|" + re.escape(found[1]) + r"\S.*;$", lines[end]):
                    end += 1
                yield f"{name}:{i + 1}", found[2], "\n".join(lines[i:end + 1])


def shape(kind, text):
    """A function without its names and numbers, a struct without its name and its fields' types."""
    if kind == "struct":
        return " ".join(re.findall(r"(?m)^\s+(?:pub )?(\w+):", text))
    text = re.sub(r"(?m)^\s*(ensures|requires)\b.*$|//.*$", "", text)
    words = re.findall(r"[A-Za-z_]\w*|\d+|\S", text)
    keep = {"fn", "let", "mut", "if", "else", "while", "for", "in", "return", "match", "loop", "break", "struct", "enum", "as", "true", "false"}
    return " ".join(w if w in keep or not re.match(r"\w", w) else ("1" if w[0].isdigit() else "x") for w in words)


def enums_as_results(files):
    return [f"{at} enum {name}" for at, name, text in items(files, "enum")
            if re.search(r"\b(Refused|Nothing|NoCover|Past|Accepted|Sound)\b", text) and not re.search(r"\bPastEnd\b", text)]


def flags_beside(files):
    mark = r"\b(refusal|number): u8,|\b(ok|more|present): bool,|\bplace: Place,|\bend: Place,|\bwidth: usize,|\b(before|after|count): usize,\n\s*(pub )?(cut|rest|piece)"
    return [f"{at} struct {name}" for at, name, text in items(files, "struct") if name != "KumolendiChange" and re.search(mark, text)]


def number_codes(files):
    return lines_like(files, r"\b(refusal|number): u8\b|\b(kind|event|past|slot): u(8|32)\b|Refused\(u8")


def twins(files):
    found = []
    for kind, least in (("fn", 5), ("struct", 4)):
        groups = defaultdict(list)
        for at, name, text in items(files, kind):
            if text.count("\n") >= least - 1 and "kumolendi_c/" not in at:
                groups[shape(kind, text)].append(f"{at} {kind} {name}")
        found += [place for group in groups.values() if len(group) > 1 for place in group]
    return found


def repeated_facts(files):
    facts = defaultdict(list)
    for at, name, text in items(files, "fn"):
        for clause in re.findall(r"requires (?:\w+ )?\{(.*)\}$", text, re.M):
            for fact in set(re.sub(r"^[( ]+|[) ]+$", "", f) for f in clause.split("×")):
                facts[fact].append(f"{at} {name}")
    return [f"{len(who)} times: {fact}" for fact, who in sorted(facts.items(), key=lambda x: -len(x[1])) if len(who) >= 3]


def together(files):
    groups = defaultdict(list)
    for at, name, text in items(files, "fn"):
        head = re.match(r".*?fn \w+(?:<.*?>)?\((.*?)\)\s*(?:->|\n|$)", text, re.S)
        params = [p.strip() for p in re.sub(r"\s+", " ", head[1] if head else "").split(",") if ":" in p]
        for i in range(len(params) - 2):
            groups[", ".join(params[i:i + 3])].append(f"{at} {name}")
    return [f"{len(who)} functions: {p}" for p, who in sorted(groups.items(), key=lambda x: -len(x[1])) if len(who) >= 3]


FORMS = [
    ("enums of the shape of Option or Result", enums_as_results),
    ("structs with a flag, a refusal or a place beside a value", flags_beside),
    ("numbers for kinds and refusals", number_codes),
    ("functions and structs of the same shape", twins),
    ("loops by hand", lambda f: lines_like(f, r"^\s*('\w+: )?(while|loop)\b")),
    ("tests by hand: {} else, return false", lambda f: lines_like(f, r"\{\} else \{|^\s+return false;$|else \{ false \}")),
    ("equality, copying, conversion by hand", lambda f: lines_like(f, r"\bfn (same|alike|copy_in|copy_out|hand_over|pack\w*|either|extend)\b|^\s+out\[\w+\] = \w+;$")),
    ("facts in three or more contracts", repeated_facts),
    ("three parameters together in three or more functions", together),
    ("a buffer with its length beside it", lambda f: lines_like(f, r": (&\[\w+\]|&mut \[\w+\]|\[\w+; 8\]), (n|m|k|t|count): usize|^\s+pub (len|count|\w+_count): usize,$")),
    ("a switch on which step to run", lambda f: lines_like(f, r"^fn step\b|match asked\b")),
]


def main():
    words = [w for w in sys.argv[1:] if w != "--list"]
    files = sources(words[0] if words else None)
    for title, find in FORMS:
        places = find(files)
        print(f"{len(places):4} {title}")
        if "--list" in sys.argv:
            for place in places:
                print(f"       {place}")


main()
