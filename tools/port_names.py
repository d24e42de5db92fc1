#!/usr/bin/env python3
"""Spells the names of the crates' own definitions and lemmas as today's Rattle spells its own.

usage: port_names.py [--check] FOLDER

FOLDER is the top of the repository, right after port.py ran there. Definitions, lemmas, fields and constructors of antt that
crates/*/specs and crates/*/proofs declare are respelled wherever they are named: in .antt files, in the clauses and ghost items of
.rt files, in must-fail edits and in the code spans of comments and documents.

- lower camel case becomes snake case, as recordShape to record_shape;
- a dash stays between two names or beside a fact, and is an underscore before a plain word, as number-below to number_below;
- crates named as a library of Rattle get another name (CRATES).

What a file imports from a library, and what Rattle generates (behind goal., tie., c., w., l.), is left alone. --check writes nothing
and prints the names that would fall together.
"""

import collections
import os
import re
import sys

CRATES = {"json": "json_text"}
# Names whose new spelling would meet another name: old, new.
GIVEN = {}
WORD = r'[^\s(){}.;,@"«»]+'
TOKEN = re.compile(r'(--[^\n]*)|("(?:[^"\\\n]|\\.)*")|(«[^»]*»)|(' + WORD + r")|(\.)|([\s(){};,@»])")
HEAD = re.compile(r"^(?P<indent> *)(?P<mods>(?:(?:pub|abbrev|unfoldable) +)*)(?P<name>" + WORD + r")(?P<args>(?: +(?:\([^()\n]*\)|\{[^{}\n]*\}))*) +: ", re.M)
BLOCK = re.compile(r"^ *(?:abbrev +|unfoldable +)*(?:pub +)?(?:record|data) +(" + WORD + ")", re.M)
USE = re.compile(r"^\s*(?:pub )?(?:ghost )?use +([^\s;{]+?)(?:\.\{([^}]*)\})?(?: as (" + WORD + r"))?;?\s*$", re.M)
LOCAL = ["typeGiven", "refersTo", "demandedOf", "placeAt", "typeNotes", "firstSide", "pickedOf", "anyNumber", "nameEnd", "valueEnd"]
SPECIAL = set("let in where elim λ use pub abbrev unfoldable record data module as mutual do deriving infix".split())
GENERATED_HEADS = set("c w l goal tie".split())


def below(top, *endings):
    for folder, folders, files in os.walk(top):
        folders[:] = sorted(it for it in folders if it not in ("out", "target", ".git", "port_said"))
        for f in sorted(files):
            if f.endswith(endings):
                yield os.path.join(folder, f)


def read(path):
    with open(path, encoding="utf-8") as f:
        return f.read()


def uncommented(text):
    return re.sub(r"(^|(?<=\s))--[^\n]*", "", text)


def snake(part):
    if not part or part[0].isupper():
        return part
    return re.sub(r"(?<=[a-z0-9])(?=[A-Z])|(?<=[A-Z])(?=[A-Z][a-z])", "_", part).lower() if re.search("[A-Z]", part) else part


def declared(text):
    """The names that a file declares: of definitions and lemmas, and of fields and constructors."""
    text = uncommented(text)
    own = {m["name"] for m in HEAD.finditer(text) if m["name"] not in SPECIAL}
    return own | set(BLOCK.findall(text))


def fields(text):
    """The fields of the records that a file declares."""
    found, inside = set(), None
    for line in uncommented(text).split("\n"):
        m = re.match(r"^( *)(?:pub +)?record ", line)
        if m:
            inside = len(m[1])
        elif inside is not None:
            m = re.match(r"^( *)(?:pub +)?(" + WORD + r")(?: " + r"[^:]*)? : ", line)
            if m and len(m[1]) > inside:
                found.add(m[2])
            elif line.strip() and len(line) - len(line.lstrip()) <= inside:
                inside = None
    return found


def is_of_this_repository(path, crates):
    steps = path.split(".")
    return steps[0] == "Rattle" and len(steps) > 1 and steps[1] in crates or steps[0] == "package"


def imports(text, crates):
    """What a file imports from libraries, under the name that the file uses; the aliases of modules."""
    foreign, aliases = set(), set()
    for path, items, alias in USE.findall(text):
        ours = is_of_this_repository(path, crates)
        if alias and not items:
            aliases.add(alias)
        if ours:
            continue
        for item in (items or path.rpartition(".")[2]).split(","):
            names = re.findall(WORD, item)
            if names:
                foreign.add(names[0])
                foreign.add(names[-1])
    return foreign, aliases


class Table:
    def __init__(self, top):
        self.crates = {c for c in os.listdir(os.path.join(top, "crates"))}
        self.declared = collections.defaultdict(set)
        specs = set()
        self.files = {}
        for path in below(os.path.join(top, "crates"), ".antt"):
            text = read(path)
            self.files[path] = text
            names = declared(text)
            for name in names:
                self.declared[name].add(path)
            if "/specs/" in path:
                specs |= names
        words = set()
        for text in self.files.values():
            for path, items, _ in USE.findall(text):
                if not is_of_this_repository(path, self.crates):
                    words |= set(re.findall(WORD, items))
        self.words = {snake(it) for it in specs | words if "-" not in it}
        self.fields = {it for text in self.files.values() for it in fields(text)}
        self.new = {}
        for name in [*self.declared, *LOCAL]:
            new = GIVEN.get(name) or self.respelled(name)
            if new != name:
                self.new[name] = new
        self.met = []
        self.keep_apart()

    def keep_apart(self):
        """Where two names that some file has would become one, a lemma among them gets the ending _lem."""
        olds = collections.defaultdict(set)
        for name in self.declared:
            olds[self.new.get(name, name)].add(name)
        olds = {new: them for new, them in olds.items() if len(them) > 1}
        wanted = {it for them in olds.values() for it in them}
        together = set()
        for text in self.files.values():
            words = set(re.findall(WORD, uncommented(text))) & wanted
            for new, them in olds.items():
                here = words & them
                if len(here) > 1:
                    together.add((new, frozenset(here)))
        for new, here in sorted(together, key=str):
            stated = sorted(here, key=lambda it: (not any("/specs/" in p for p in self.declared[it]), not re.search("[A-Z]", it), it))
            for it in stated[1:]:
                self.new[it] = new + "_lem"
            self.met.append(f"met: {stated[0]} is {new}, " + ", ".join(f"{it} is {self.new[it]}" for it in stated[1:]))

    def respelled(self, name):
        name = name.replace("′", "'")
        if name.startswith("-") or name.endswith("-") or "◌" in name:
            return name
        parts = [snake(it) for it in name.split("-")]
        out = parts[0]
        for before, part in zip(parts, parts[1:]):
            both = self.is_name(before) and self.is_name(part) or before[:1].isupper() or part[:1].isupper()
            out += ("-" if both else "_") + part
        return out

    def is_name(self, part):
        return part in self.words or not re.match(r"^[a-z0-9_']+$", part)


def chained(text, table, foreign, aliases, own):
    """The text of a file of antt, or of a clause, with the names respelled."""
    out, head, after_dot = [], None, False
    for comment, string, quoted, word, dot, other in TOKEN.findall(text):
        if comment:
            out.append(spans(comment, table))
        elif word and not after_dot:
            head = word
            out.append(word if word in foreign and word not in own else table.new.get(word, word))
        elif word:
            named = word in table.fields or head in aliases or head in ("Rattle", "package")
            out.append(table.new.get(word, word) if named else word)
        else:
            out.append(string or quoted or dot or other)
            if other and other != "{":
                head = None
            if other == ")":
                head = ")"
        after_dot = bool(dot) or after_dot and other == "{" and head in ("Rattle", "package")
    return "".join(out)


def turned_antt(text, table, own=None):
    foreign, aliases = imports(text, table.crates)
    lines, rest = [], []
    for line in text.split("\n"):
        m = USE.match(line)
        if m and line.strip()[:4] in ("use ", "pub "):
            if rest:
                lines.append(chained("\n".join(rest), table, foreign, aliases, own or set()))
                rest = []
            lines.append(turned_use(line, table))
        else:
            rest.append(line)
    if rest:
        lines.append(chained("\n".join(rest), table, foreign, aliases, own or set()))
    return "\n".join(lines)


def turned_use(line, table):
    m = USE.match(line)
    path, items, alias = m[1], m[2], m[3]
    if not is_of_this_repository(path, table.crates):
        return line
    steps = path.split(".")
    if steps[1] in CRATES:
        steps[1] = CRATES[steps[1]]
    path = ".".join(steps[:2] + steps[2:-1] + [steps[-1]])
    if not items:
        return line[: m.start(1)] + path + line[m.end(1) :]

    def item(it):
        words = it.split()
        new = [w if w == "as" else table.new.get(w, w) for w in words]
        if len(new) == 3 and new[0] == new[2]:
            new = new[:1]
        return " ".join(new)

    inner = ", ".join(item(it) for it in items.split(",") if it.strip())
    return line[: m.start(1)] + path + ".{" + inner + "}" + line[m.end(2) + 1 :]


def spans(comment, table):
    return re.sub(r"`([^`\n]+)`", lambda m: "`" + re.sub(WORD, lambda w: table.new.get(w[0], w[0]), m[1]) + "`", comment)


CLAUSE = re.compile(r"(?:\b(?:requires|ensures)\*?|\bghost)(?: +\w+)?(?: *[:=])? *\{")


def turned_rt(text, table):
    """The text of a source, with the names in its clauses, ghost items and comments respelled."""
    uses = "\n".join(m[0] for m in re.finditer(r"(?m)^ *(?:pub )?ghost use [^;]*;", text))
    foreign, aliases = imports(uses, table.crates)
    out, at = [], 0
    starts = re.compile(r"//[^\n]*|\bghost use [^;]*;|" + CLAUSE.pattern)
    while True:
        m = starts.search(text, at)
        if not m:
            break
        out.append(crates_in(text[at : m.start()]))
        if m[0].startswith("//"):
            out.append(spans(m[0], table))
            at = m.end()
        elif m[0].startswith("ghost use"):
            out.append(turned_use(m[0], table))
            at = m.end()
        else:
            depth, end = 1, m.end()
            while depth:
                depth += {"{": 1, "}": -1}.get(text[end], 0)
                end += 1
            out.append(m[0] + chained(text[m.end() : end], table, foreign, aliases, set()))
            at = end
    out.append(crates_in(text[at:]))
    return "".join(out)


def crates_in(code):
    for old, new in CRATES.items():
        code = re.sub(rf"(?<![\w:]){old}(?=::)", new, code)
    return code


def turned_edit(text, table):
    out, of_specs = [], False
    for line in text.split("\n"):
        if line.startswith("file:"):
            of_specs = line.rstrip().endswith(".antt")
        elif line[:4] in ("old:", "new:"):
            body = line[4:]
            line = line[:4] + (chained(body, table, set(), set(), set()) if of_specs else turned_rt(body, table))
        out.append(line)
    return "\n".join(out)


def turned_page(text, table):
    def code(m):
        return re.sub(r"[a-z]\w*[A-Z]\w*", lambda w: table.new.get(w[0], w[0]), m[0])

    return re.sub(r"`[^`\n]+`", code, text)


def main(argv):
    check = "--check" in argv
    top = [it for it in argv if it != "--check"][0]
    table = Table(top)
    for line in table.met:
        print(line)
    if check:
        return 0
    crates = os.path.join(top, "crates")
    n = 0
    for path in list(below(crates, ".antt", ".rt", ".edit")):
        text = read(path)
        turned = turned_antt(text, table, declared(text)) if path.endswith(".antt") else turned_rt(text, table) if path.endswith(".rt") else turned_edit(text, table)
        if turned != text:
            n += 1
            with open(path, "w", encoding="utf-8") as f:
                f.write(turned)
    for path in [os.path.join(top, "README.md"), *below(os.path.join(top, "docs"), ".md")]:
        text = read(path)
        turned = turned_page(text, table)
        if turned != text:
            n += 1
            with open(path, "w", encoding="utf-8") as f:
                f.write(turned)
    for old, new in CRATES.items():
        if os.path.isdir(os.path.join(crates, old)):
            os.rename(os.path.join(crates, old), os.path.join(crates, new))
        path = os.path.join(top, "crates.txt")
        with open(path, encoding="utf-8") as f:
            text = f.read()
        with open(path, "w", encoding="utf-8") as f:
            f.write(re.sub(rf"(?m)(?<=[ \n]){old}(?=[ :\n])", new, text))
    print(f"{len(table.new)} names respelled, {n} files changed")
    return 0


if __name__ == "__main__":
    raise SystemExit(main(sys.argv[1:]))
