#!/usr/bin/env python3
"""Brings the names of definitions and lemmas to one spelling: words in snake case, types in camel case.

Run once at the top of the repository, behind the toolchain's own script. Names that the toolchain makes or that stand in
its library stay, and so do those of functions, files, strings and of program text. With --list it only prints the names.
"""
import pathlib
import re
import sys

WORD = r"[A-Za-z_][A-Za-z0-9_'·]*(?:-[A-Za-z0-9_'·]+)*"
SIGNATURE = re.compile(rf"^\s*(?:abbrev |unfoldable )?(?:pub )?({WORD})(?: \{{.*?\}}| \(.*?\))* :(?: (.*))?$")
FAMILY = re.compile(rf"^\s*(?:pub )?(data|record) ({WORD})")
CLAUSE_WORDS = {"use", "module", "unfolding", "let", "open", "pub", "where"}
# A fact that was written small, though a type's name begins with a capital letter, and a lemma that would have fallen
# together with the definition that it is about.
BY_HAND = {"stands": "Stands", "kind-byte": "kind_byte_only"}


def snake(name):
    name = re.sub(r"([a-z0-9])([A-Z])", lambda m: m[1] + "_" + m[2].lower(), name)
    return name.replace("-", "_")


def camel(name):
    return "".join(part[:1].upper() + part[1:] for part in name.split("-"))


def respelled(name):
    if name in BY_HAND:
        return BY_HAND[name]
    return camel(name) if name[0].isupper() else snake(name)


def library_names(texts):
    """The names that files take from the toolchain's library."""
    found = set()
    for text in texts:
        for names in re.findall(r"^(?:pub |ghost )*use Rattle\.std\.[^{;\n]*\{([^}]*)\}", text, re.M):
            found.update(name.strip().split(" as ")[0] for name in names.split(","))
    return found


def defined(text):
    """The names that a file of definitions or proofs defines."""
    found = set()
    for line in text.split("\n"):
        if line.lstrip().startswith("--"):
            continue
        family = FAMILY.match(line)
        if family:
            found.add(family[2])
            continue
        signature = SIGNATURE.match(line)
        if signature and signature[1] not in CLAUSE_WORDS:
            if re.match(r"(goal|need|given)\.", (signature[2] or "").strip()):
                continue
            found.add(signature[1])
    return found


def main():
    root = pathlib.Path("crates")
    antt = sorted(root.glob("*/specs/**/*.antt")) + sorted(root.glob("*/proofs/**/*.antt"))
    source = sorted(root.glob("*/src/**/*.rt"))
    edits = sorted(root.glob("*/must-fail/*.edit"))
    pages = [pathlib.Path("README.md")] + sorted(pathlib.Path("docs").glob("*.md"))
    texts = {path: path.read_text() for path in antt + source + edits}
    names = set().union(*(defined(texts[path]) for path in antt))
    change = {name: respelled(name) for name in names if respelled(name) != name}
    kept = library_names(texts.values())
    change = {old: new for old, new in change.items() if old not in kept}
    if "--list" in sys.argv:
        for old, new in sorted(change.items()):
            print(old, new, "CLASH" if new in names or new in kept else "")
        return
    token = re.compile(rf"(?<![A-Za-z0-9_'·-]){WORD}(?![A-Za-z0-9_'·])")
    # A string or a comment of program text is left as it is.
    program = re.compile(r'"(?:[^"\\]|\\.)*"|//[^\n]*|' + token.pattern)
    met = {}

    def turn(path, match):
        old = match[0]
        new = change.get(old, old)
        if re.fullmatch(WORD, new):
            met.setdefault((path, new), set()).add(old)
        return new

    for path, text in texts.items():
        pattern = token if path.suffix == ".antt" else program
        turned = pattern.sub(lambda match: turn(path, match), text)
        if turned != text:
            path.write_text(turned)
    for (path, new), olds in sorted(met.items(), key=str):
        if len(olds) > 1:
            print(f"{path}: {', '.join(sorted(olds))} are all {new} now")
    # In documents, names stand between backticks.
    spelled = names - set(change) | set(change.values())
    by_old = {**{old: new for old, new in change.items()}}
    for path in pages:
        text = path.read_text()

        def page_word(match):
            old = match[0]
            new = by_old.get(old) or respelled(old)
            return new if new in spelled and old not in spelled else old

        turned = re.sub(r"`[^`\n]+`", lambda code: token.sub(page_word, code[0]), text)
        if turned != text:
            path.write_text(turned)


main()
