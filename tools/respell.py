#!/usr/bin/env python3
"""Respells this repository's own definitions and lemmas for today's Rattle: words in snake case, types in camel case.

usage: python3 tools/respell.py          at the top of the repository, once, after port.py

Turned are the names that specs/ and the lemma files of proofs/ declare, wherever they stand: in .antt files, in contracts and ghost lines of .rt files, in must-fail edits,
and between backquotes in comments and papers. Functions of src/, strings, inputs and outputs keep their names. Edits get the operators and projections of today too.
What falls together is told apart by hand, in the tables below.
"""

import collections
import glob
import re
import sys

SIGNATURE = re.compile(r"^\s*(?:(?:unfoldable|abbrev|pub|data|record)\s+)*((?:[^\s:{}(),;.]+\s+)+?)(?:[\(\{][^)}]*[\)\}]\s*)*:\s")
TOKEN = re.compile(r"[A-Za-z_][A-Za-z0-9_'′₀-₉-]*")

# Lemmas that would have the name of a definition, in a file that has both.
# A lemma whose name a field has too is told apart in the one file where a definition has the name.
IN_FILE = {
    "crates/dynamic_honey_badger/proofs/PageMessageLaws.antt": {"is-key": "is_key_lem"},
    "crates/agreement/proofs/StepLaws.antt": {"by-key-gen": "by_key_gen_lem"},
}
TOLD_APART = {"worked-out": "board_worked_out", "with_params": "with_params_lem", "decide_by": "decide_by_lem"}


def snake(name):
    name = re.sub(r"(?<=[a-z0-9])([A-Z])", lambda m: "_" + m.group(1).lower(), name)
    return name.replace("-", "_").replace("′", "'")


def files(*patterns):
    return sorted(p for pattern in patterns for p in glob.glob(pattern, recursive=True) if "/out/" not in p)


def read(path):
    with open(path, encoding="utf-8") as f:
        return f.read()


def declared():
    """Each name that specs/ or a lemma file declares, with the folders that do."""
    found = collections.defaultdict(set)
    for path in files("crates/*/specs/*.antt", "crates/*/proofs/*.antt"):
        for line in read(path).splitlines():
            m = None if line.lstrip().startswith("--") else SIGNATURE.match(line + " ")
            for name in m.group(1).split() if m else []:
                found[name].add(path.split("/")[2])
    return found


def uncommented(text):
    return "\n".join(re.split(r"(?:^|\s)--(?:\s|$)", line)[0] for line in text.splitlines())


def tables():
    names = declared()
    plain = {n: snake(n) for n in names if n[0].islower() and snake(n) != n}
    meet = set()
    for path in files("crates/**/*.antt"):
        groups = collections.defaultdict(set)
        for token in set(TOKEN.findall(uncommented(read(path)))):
            if token in names:
                groups[plain.get(token, token)].add(token)
        for group in groups.values():
            if len(group) > 1:
                meet |= {n for n in group if "-" in n and names[n] == {"proofs"}}
    lemmas = {n: plain[n] + "_lem" for n in meet}
    return plain, lemmas | TOLD_APART


class Later(dict):
    """Names as they stood before port.py, which turned some of them already: for edits and papers."""

    def __init__(self, plain, names):
        super().__init__(plain)
        self.names = names

    def get(self, name, otherwise=None):
        if name in self or not name[0].islower() or name in self.names or snake(name) not in self.names:
            return super().get(name, otherwise)
        return snake(name)


def respell(code, plain, apart):
    def turn(m):
        name = m.group(0)
        projected = m.start() > 0 and code[m.start() - 1] == "." and (m.start() < 2 or code[m.start() - 2] != ".")
        if name in apart and (not projected or name == "worked-out"):
            return apart[name]
        return plain.get(name, name)

    return TOKEN.sub(turn, code)


def in_comment(text, plain, apart):
    return re.sub(r"`[^`\n]*`", lambda m: respell(m.group(0), plain, apart), text)


def imported(text):
    """What a file takes from modules that aren't the repository's keeps its name."""
    own = {path.split("/")[1] for path in files("crates/*/specs/Lib.antt")}
    taken = set()
    for m in re.finditer(r"^\s*(?:ghost )?use ([^\s{]+)\.\{(.*)\}", text, re.M):
        if not re.match(r"Rattle[.·](%s)[.·]" % "|".join(own), m.group(1)):
            taken |= set(re.split(r",\s*", m.group(2)))
    return taken


def antt(text, plain, apart):
    taken = imported(text)
    plain = {n: new for n, new in plain.items() if n not in taken}
    out = []
    for line in text.split("\n"):
        m = re.search(r"(?:^|(?<=\s))--(?:\s|$)", line)
        cut = m.start() if m else len(line)
        out.append(respell(line[:cut], plain, apart) + in_comment(line[cut:], plain, apart))
    return "\n".join(out)


def source(text, plain, apart):
    """Ghost lines and clauses alone: code keeps its names."""
    out, depth = [], 0
    for line in text.split("\n"):
        head = line.lstrip()
        if head.startswith("//"):
            out.append(in_comment(line, plain, apart))
            continue
        if depth or head.startswith(("ghost", "requires", "ensures")):
            out.append(respell(line, plain, apart))
            depth += line.count("{") - line.count("}")
        else:
            out.append(line)
    return "\n".join(out)


PROJECTED = re.compile(r"(?<=[\w)\]'₀-₉]) (\.[A-Za-z0-9])")
BRACKETED = re.compile(r"\((\w[\w'₀-₉-]*(?:\.[\w'-]+)+)\)")


def edited(text, plain, apart):
    """The lines of an edit: names, projections, operators in imports, clauses without brackets."""
    out, where = [], ""
    for line in text.split("\n"):
        if line.startswith("file: "):
            where = line[6:].strip()
        if not line.startswith(("old: ", "new: ")):
            out.append(in_comment(line, plain, apart))
            continue
        kind, body = line[:5], line[5:]
        ghost = where.endswith(".antt") or re.search(r"ensures|requires|ghost", body)
        if ghost:
            body = re.sub(r"λ (\w+)\. ⌜ (.*) ⌝", lambda m: re.sub(r"\b%s\b" % m.group(1), "result", m.group(2)), body)
            body = body.replace("⌜ ", "").replace(" ⌝", "").replace("Rattle·", "Rattle.").replace("·specs.specs.", ".specs.").replace("·proofs.proofs.", ".proofs.")
            body = re.sub(r"now \((\w+) \.(?:entry|exit)\)", lambda m: m.group(1) + ".now", body)
            body = PROJECTED.sub(r"\1", body)
            body = PROJECTED.sub(r"\1", body)
            body = BRACKETED.sub(r"\1", body)
            body = respell(body, plain, apart)
        out.append(kind + body)
    return "\n".join(out)


def main():
    plain, apart = tables()
    if not plain:
        print("respell: nothing to do")
        return 1
    later = Later(plain, declared())
    turned = 0
    for paths, turn, table in (
        (files("crates/**/*.antt"), antt, plain),
        (files("crates/**/*.rt"), source, plain),
        (files("crates/*/must-fail/*.edit"), edited, later),
        (files("README.md", "CONTRIBUTING.md", "docs/*.md"), in_comment, later),
    ):
        for path in paths:
            old = read(path)
            new = turn(old, table, apart | IN_FILE.get(path, {}))
            if new != old:
                turned += 1
                with open(path, "w", encoding="utf-8") as f:
                    f.write(new)
    print(f"respell: {len(plain)} names, {len(apart)} of them told apart; {turned} files")
    for name in sorted(apart):
        print("apart:", name, "->", apart[name])
    return 0


if __name__ == "__main__":
    sys.exit(main())
