#!/usr/bin/env python3
"""Turns a crate's Proof.antt files of tie.spec into Invariants.antt and Answers.antt.

usage: port_answers.py NAMES CRATE

NAMES is the names.json that `rt check --generated DIR --old-names` writes for the crate, CRATE its folder. An answer that only
says `search rules` or `omega arith` goes, since the check tries both. A file whose lemmas speak of a place of the code by its type
stays a Proof.antt, and is left to port_proofs.py.
"""
import json
import os
import re
import sys

WORD = r'[^\s(){}.;,@"«»]+'
TOKEN = re.compile(r'(--[^\n]*)|("(?:[^"\\\n]|\\.)*")|(«[^»]*»)|(' + WORD + r")|(\.)|([\s(){};,@»])")
TRIVIAL = ("search rules", "omega arith", "refl")


def norm(s):
    return s.replace("_", "-")


def declarations(text):
    """The head of a file, and each declaration below it: its name, type, lines between, and clauses."""
    lines = text.split("\n")
    i = 0
    while i < len(lines) and (lines[i].startswith("--") or lines[i].startswith("use ") or not lines[i].strip()):
        i += 1
    head, rest = lines[:i], lines[i:]
    blocks, cur = [], []
    comment = []
    for l in rest:
        if not l.strip():
            continue
        if l.startswith("--"):
            if cur:
                blocks.append(cur)
                cur = []
            comment.append(l)
            continue
        m = re.match(r"^(?:(?:pub|abbrev|unfoldable) )*(" + WORD + r")(?: [({].*?[)}])* : ", l)
        if m and not l.startswith(" "):
            if cur:
                blocks.append(cur)
            cur = comment + [l]
            comment = []
        else:
            cur.append(l)
    if cur:
        blocks.append(cur)
    return head, blocks


class Turn:
    def __init__(self, entry, crate, path):
        self.e, self.crate, self.path = entry, crate, path
        self.needs = {}
        for old, new in entry["needs"]:
            self.needs.setdefault(norm(old), new)
        for old, new in entry["needs"]:
            self.needs.setdefault(norm(new), new)
        self.steps = {}
        for p in entry["places"]:
            o, n = p[2]
            if o:
                self.steps.setdefault(norm(o), n)
        self.loops = {}
        for (o, n), variables in entry["loops"]:
            self.loops[norm(o)] = (n, variables)
            self.steps[norm(o)] = n
            self.steps.setdefault(norm(o + "-test"), n + "-test")
        self.arms = []
        for arm in entry["arms"]:
            if arm:
                for field, step, way in arm[2]:
                    self.arms.append((norm(step), way, arm[0], field))
        self.typed = {}
        for at in entry["typed"]:
            for variable, step in at:
                self.typed.setdefault(norm(step), variable)
        self.left = []

    def chain(self, parts):
        head, fields = parts[0], parts[1:]
        had = "before" in fields
        fields = [f for f in fields if f != "before"]
        if not fields:
            return [head]
        step = norm(fields[0])
        if head == "tie":
            return parts
        known = had or head == "c" or step in self.loops or len(fields) > 1 and fields[1] in ("result", "ensures", "new", "given", "true", "false", "invariant", "inv", "taken", "auto", "is", "branch", "last")
        if step in ("pre",) and known:
            return [head, "requires", *fields[1:]]
        if not known or head[0].isupper():
            return [head, *fields]
        for s, way, arm, field in sorted(self.arms, key=lambda it: -len(it[1])):
            if s == step and way and fields[1 : 1 + len(way)] == way:
                return [head, arm, field, *fields[1 + len(way) :]]
        if step in self.typed and fields[1:2] == ["given"]:
            return [head, "type_inv", self.typed[step], *fields[2:]]
        if step in self.steps:
            rest = fields[1:]
            if rest[:1] == ["inv"]:
                rest = ["invariant", *rest[1:]]
            if rest[:1] == ["taken"]:
                rest = ["true", *rest[1:]]
            return [head, self.steps[step], *rest]
        return [head, *fields]

    def body(self, text, rename=None):
        """The text with each path of a context flat, and local names renamed."""
        out, parts = [], []
        rename = rename or {}

        def flush():
            if parts:
                out.append(".".join(rename.get(it, it) if k == 0 else it for k, it in enumerate(self.chain(parts))))
                parts.clear()

        toks = TOKEN.findall(text)
        dot = False
        for comment, string, quoted, word, point, other in toks:
            if word and dot and parts:
                parts.append(word)
                dot = False
            elif word and dot:
                out.append("." + word)
                dot = False
            elif word:
                flush()
                parts.append(word)
            elif point:
                if dot:
                    flush()
                    out.append(".")
                if not parts:
                    out.append(".")
                else:
                    dot = True
            else:
                flush()
                if dot:
                    out.append(".")
                    dot = False
                out.append(comment or string or quoted or other)
        flush()
        if dot:
            out.append(".")
        # A test of `!x` is known as x ≡ false now, and not as not x ≡ true.
        plain = re.sub(r"\(not-(?:true|false) _ ([\w.'-]+\.(?:true|false))\)", r"\1", "".join(out))
        plain = re.sub(r"not-(?:true|false) _ ([\w'-]+\.[\w.'-]+\.(?:true|false))", r"\1", plain)
        return self.unaliased(plain)

    def unaliased(self, text):
        while True:
            m = re.search(r"let (\w+) = (\w+) in\s*", text)
            if not m:
                return text
            a, b = m[1], m[2]
            rest = text[m.end() :]
            rest = re.sub(r"(?<![^\s(){};,@.])(?<!\.)" + re.escape(a) + r"(?![^\s(){}.;,@\"])", b, rest)
            text = text[: m.start()] + rest

    def goal_of(self, kind):
        m = re.match(r"tie\.Need[-_](" + WORD + ")", kind)
        if m:
            return self.needs.get(norm(m[1]))
        return None


def spec_args(text):
    """The arguments of tie.spec in the closing declaration."""
    at = text.index("tie.spec") + len("tie.spec")
    args, depth, cur = [], 0, ""
    for ch in text[at:]:
        if ch == "(":
            depth += 1
        if ch == ")":
            if depth == 0:
                break
            depth -= 1
        if depth == 0 and ch.isspace():
            if cur.strip():
                args.append(cur.strip())
            cur = ""
        else:
            cur += ch
    if cur.strip():
        args.append(cur.strip())
    return args


def turn(text, entry, crate, path):
    head, blocks = declarations(text)
    t = Turn(entry, crate, path)
    local, others, answers, invariants, spec, opened = {}, [], [], [], None, []
    whole = "\n".join("\n".join(b) for b in blocks)
    if re.search(r"tie\.(?!Need|invariant|decreases|close|spec)", whole) or "tie.spec" not in whole:
        return None
    for b in blocks:
        k = next(i for i, l in enumerate(b) if not l.startswith("--"))
        sig = b[k]
        m = re.match(r"^(?:(?:pub|abbrev|unfoldable) )*(" + WORD + r")(?: [({].*?[)}])* : ?(.*)$", sig)
        if not m:
            others.append(b)
            continue
        name, kind = m[1], m[2]
        if "statement" in kind:
            spec = "\n".join(b[k + 1 :])
            opened = [l for l in b[k + 1 :] if l.startswith("unfolding ")]
        elif re.match(r"tie\.(invariant|decreases)", kind):
            invariants.append((name, kind, b[:k], b[k + 1 :]))
        elif kind.startswith("tie.Need"):  # an answer
            local[name] = t.goal_of(kind)
            if not local[name]:
                t.left.append(f"no goal {kind}")
                local[name] = kind + "??"
            answers.append((name, kind, b[:k], b[k + 1 :]))
        else:
            others.append(b)
    out_a, out_i = [], []
    for b in others:
        out_a.append("\n".join(b))
    for name, kind, comment, rest in answers:
        goal = local[name]
        body = "\n".join(rest)
        body = t.body(body, local)
        body = re.sub(r"^(" + re.escape(goal) + r") c κs", r"\1 c", body, flags=re.M)
        if re.sub(r"\s+", " ", body).strip() in [f"{goal} c = {it}" for it in TRIVIAL]:
            continue
        out_a.append("\n".join(comment + [f"pub {goal} : goal.{goal}", body]))
    if spec:
        args = spec_args(spec)
        n_inv = len(entry["loops"])
        named = [a for a in args if re.match(r"^(invariant|decreases)", a)]
        rest = args[len(named) :] if args[: len(named)] == named else [a for a in args if a not in named]
        needs = entry["needs"]
        done = set(local.values())
        fits = len(rest) == len(needs)
        for k, a in enumerate(rest):
            m = re.match(r"^\(λ (.*?)\. (.*)\)$", a, re.S)
            if not m:
                continue
            term = re.sub(r"\s+", " ", m[2].strip())
            if term in TRIVIAL and not (opened and re.match("returns|loop|.*preserved|.*requires", needs[k][1] if fits else "")):
                continue
            if not fits:
                t.left.append(f"an answer by place: {a}")
                out_a.append(f"-- LEFT {k + 1} of {len(rest)}: {a}")
                continue
            goal = needs[k][1]
            if goal in done:
                continue
            first, *more = [it for it in m[1].split() if it != "κs"]
            body = t.body(m[2].strip(), local)
            if first != "c":
                body = re.sub(r"(?<![^\s(){};,@])" + re.escape(first) + r"(?![^\s(){}.;,@])", "c", body)
            out_a.append("\n".join([f"pub {goal} : goal.{goal}", *opened, " ".join([goal, "c", *more]) + f" = {body}"]))
    for name, kind, comment, rest in invariants:
        m = re.match(r"tie\.(invariant|decreases)[-_](" + WORD + ")", kind)
        what, loop = m[1], norm(m[2])
        if loop not in t.loops:
            t.left.append(f"no loop {kind}")
            new, variables = m[2], []
        else:
            new, variables = t.loops[loop]
        body = "\n".join(rest)
        c = re.match(r"^((?: *unfolding [^\n]*\n)?) *" + re.escape(name) + r" (.*?) = ", body, re.S)
        if not c:
            t.left.append(f"invariant {name} not read")
            continue
        args = re.findall(r"«[^»]*»|" + WORD, c[2])
        if len(args) == 1:
            text_i = body[c.end() :]
        else:
            text_i = body[c.end() :]
            plain = [a.strip("«»") for a in args]
            sub = {}
            for a, p in zip(args, plain):
                if p.endswith("₀"):
                    sub[a] = f"l.initial.{p[:-1]}"
                else:
                    sub[a] = f"l.{p}"
                if variables and p.rstrip("₀") not in variables:
                    t.left.append(f"{name}: no variable {p}")

            def swap(mm):
                return sub[mm[0]] if mm[0] in sub else mm[0]

            text_i = re.sub(r"(?<![^\s(){};,@])(?:«[^»]*»|" + WORD + ")", swap, text_i)
        full = f"{what}-{new}"
        out_i.append("\n".join(comment + [f"abbrev pub {full} : goal.{full}", f"{c[1]}{full} l = {text_i}"]))
    base = "Rattle." + crate + ".proofs." + path
    comments = [l for l in head if l.startswith("--")]
    uses = [l for l in head if l.startswith("use ") and not l.endswith(" as tie") and ".Statement.{" not in l]
    res = {}
    if out_i:
        res["Invariants"] = "\n".join((comments if not out_a else []) + uses + [f"use {base}.Given as goal", ""]) + "\n" + "\n\n".join(out_i) + "\n"
    if out_a:
        res["Answers"] = "\n".join(comments + uses + [f"use {base}.Goals as goal", ""]) + "\n" + "\n\n".join(out_a) + "\n"
    return res, t.left


def main(names, crate):
    with open(names) as f:
        d = json.load(f)
    c = os.path.basename(os.path.abspath(crate))
    turned = kept = 0
    for k, e in d.items():
        m = re.match(rf"Rattle-{c}-proofs\.(.*)\.Lts", k)
        if not m:
            continue
        folder = os.path.join(crate, "proofs", m[1].replace(".", "/"))
        p = os.path.join(folder, "Proof.antt")
        if not os.path.exists(p):
            continue
        with open(p) as f:
            text = f.read()
        r = turn(text, e, c, m[1])
        if r is None:
            kept += 1
            print("kept", p)
            continue
        files, left = r
        for l in left:
            print("left:", p, l[:200])
        os.remove(p)
        for name, content in files.items():
            with open(os.path.join(folder, name + ".antt"), "w") as f:
                f.write(content)
        if not os.listdir(folder):
            os.rmdir(folder)
        turned += 1
    print(f"{c}: {turned} turned, {kept} kept")


if __name__ == "__main__":
    main(*sys.argv[1:3])
