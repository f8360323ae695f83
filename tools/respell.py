#!/usr/bin/env python3
"""Spells the repository's own definitions and lemmas as today's library does, after the kit's port.py. Run once, at the top.

Words are in snake case, modules and types in camel case; a lemma that would have a definition's name ends in `_lem`;
the crate `log` gets a name that is no library's of the kit; each crate asks for tactics by an attribute.
"""
import glob
import os
import re
import subprocess
import sys

NAME = re.compile(r'[^\s(){}.;,@"«»|↦\[\]]+')
# A comment, a quoted text, or a name.
ANTT = re.compile(r'(\{-.*?-\}|(?:(?<=\s)|^)--[^\n]*|"(?:[^"\\\n]|\\.)*")|([^\s(){}.;,@"«»|\[\]]+)', re.S | re.M)
RUST = re.compile(r'(//[^\n]*|"(?:[^"\\\n]|\\.)*")|([^\s(){}.;,@"«»|\[\]&*!:<>]+)', re.S)
CAMEL = re.compile(r"[a-z]\S*?[a-z0-9][A-Z]")
# Lemmas that would have the name of a definition.
LEMMAS = "drop_code stops_at walked_by is_known is_digit last_fits end_known".split()
# Words of specs/ that were joined by dashes.
DASHED = (
    "all-ended an-end a-drop the-rule first-line no-four few-tasks not-begun started-at-0 ready-later for-nobody each-accepted in-range early-is "
    "each-said refused-drop holds-field no-three no-twenty when-free ready-field task-line faulty-pair refused-plan faulty-field missing-field "
    "field-too-many missing-lf boards-are tasks-are in-time few-boards has-line edition-is not-added refused-log accepted-log says-9 says-1 says-23 "
    "says-24 says-25 says-26 says-27 plan-refused the-drops drops-once the-ends ends-once said-9 said-22 said-19 a-length refused-length "
    "by-early-start by-clash rule-line lengths-refused engine-refused below-a below-b range-a range-b"
).split()
MODULES = [("specs", "private", "Private"), ("specs", "words", "Words"), ("proofs", "codes", "Codes")]
CRATES = {"log": "log_run"}


def snake(word):
    return re.sub(r"(?<=[a-z0-9])[A-Z]", lambda m: "_" + m[0].lower(), word)


def turned(word, before):
    """The name as it is spelt today; `before` is the character in front of it, where the text is antt."""
    if before is not None and before != "." and word in LEMMAS:
        return word + "_lem"
    if before is not None and word in DASHED:
        return word.replace("-", "_")
    if CAMEL.match(word):
        return snake(word)
    return word


def turn(text, form):
    def one(m):
        if m[1] is not None:
            return m[1]
        before = text[m.start() - 1] if m.start() else ""
        return turned(m[2], before if form is ANTT else None)

    return form.sub(one, text)


def paths(text):
    for side, old, new in MODULES:
        text = re.sub(rf"(?<=\.{side}\.){old}(?![\w-])", new, text)
        text = re.sub(rf"(?m)^(\s*(?:pub )?mod ){old}$", rf"\g<1>{new}", text)
    for old, new in CRATES.items():
        text = re.sub(rf"\bRattle\.{old}\.", f"Rattle.{new}.", text)
    return text


def code_paths(text):
    for old, new in CRATES.items():
        text = re.sub(rf"(?m)^((?:pub )?use ){old}::", rf"\g<1>{new}::", text)
        text = re.sub(rf"(?<![\w:]){old}::(?=\w)", f"{new}::", text)
    return text


def rewrite(path, text, old):
    if text != old:
        with open(path, "w", encoding="utf-8") as f:
            f.write(text)


def turn_files():
    for path in sorted(glob.glob("crates/*/**/*", recursive=True)):
        if "/out/" in path or not path.endswith((".antt", ".rt", ".edit")):
            continue
        old = open(path, encoding="utf-8").read()
        if path.endswith(".antt"):
            text = paths(turn(old, ANTT))
            text = text.replace("book-codes.drop_code", "book-codes.drop_code_lem")
        elif path.endswith(".rt"):
            text = code_paths(paths(turn(old, RUST)))
        else:
            text = code_paths(paths(turn(old, ANTT)))
            for side, module, new in MODULES:
                text = re.sub(rf"(?m)^(file: {side}/){module}(?=[/.])", rf"\g<1>{new}", text)
        rewrite(path, text, old)


def move(old, new):
    if os.path.exists(old):
        subprocess.run(["git", "mv", old, new], check=True)


def move_files():
    for crate in sorted(os.listdir("crates")):
        for side, old, new in MODULES:
            for end in (".antt", ""):
                move(f"crates/{crate}/{side}/{old}{end}", f"crates/{crate}/{side}/{new}{end}")
    for old, new in CRATES.items():
        move(f"crates/{old}", f"crates/{new}")
    text = open("crates.txt", encoding="utf-8").read()
    lines = []
    for line in text.splitlines():
        if ":" in line and not line.startswith("#"):
            for old, new in CRATES.items():
                line = re.sub(rf"(?<![\w]){old}(?!\w)", new, line)
        lines.append(line)
    rewrite("crates.txt", "\n".join(lines) + "\n", text)


def ask_for_tactics():
    """The attribute stands above the first item."""
    for path in glob.glob("crates/*/src/lib.rt") + glob.glob("crates/*/src/main.rt"):
        old = open(path, encoding="utf-8").read()
        if "#![tactic(" in old:
            continue
        lines = old.splitlines()
        at = 0
        while at < len(lines) and (lines[at].startswith("//") or not lines[at].strip()):
            at += 1
        rewrite(path, "\n".join(lines[:at] + ["#![tactic(auto)]", ""] + lines[at:]) + "\n", old)


def main():
    if not os.path.isdir("crates"):
        sys.exit("respell: call it at the top of the repository")
    turn_files()
    move_files()
    ask_for_tactics()
    for crate in sorted(os.listdir("crates")):
        if os.path.isdir(f"crates/{crate}/src"):
            subprocess.run(["rt", "fmt"], cwd=f"crates/{crate}", check=False, stdout=subprocess.DEVNULL)


if __name__ == "__main__":
    main()
