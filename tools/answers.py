#!/usr/bin/env python3
"""Turns each Proof.antt of a crate that answers `tie.spec` by position into Invariants.antt and Answers.antt.

usage: python3 tools/answers.py CRATE NAMES.json        (rt check --generated DIR --old-names, in the crate, writes NAMES.json)

The answers that only search by rules go: the check tries them by itself. What it can't turn it tells, and leaves.
"""

import json
import os
import re
import sys

W = r"[^\s(){}.;,@\"«»\[\]\\]+"
TRIVIAL = re.compile(r"^(λ c( κs)?\. )?(search rules|omega arith)$")


def key(name):
    return re.sub(r"-+", "-", name.replace("_lem", "").replace("_", "-"))


def balanced(text, at):
    """The end of the bracket that opens at `at`."""
    depth = 0
    i = at
    while i < len(text):
        c = text[i]
        if text.startswith("--", i):
            i = text.index("\n", i) if "\n" in text[i:] else len(text)
            continue
        if c in "([{":
            depth += 1
        elif c in ")]}":
            depth -= 1
            if depth == 0:
                return i + 1
        i += 1
    raise ValueError("unbalanced")


def arguments(text):
    """The arguments in text, each with the comment behind it."""
    out = []
    i = 0
    while i < len(text):
        if text[i].isspace():
            i += 1
        elif text.startswith("--", i):
            end = text.find("\n", i)
            end = len(text) if end < 0 else end
            if out:
                out[-1] = (out[-1][0], text[i:end].strip())
            i = end
        elif text[i] in "([{":
            end = balanced(text, i)
            out.append((text[i:end], None))
            i = end
        else:
            m = re.compile(r"[^\s(){}]+").match(text, i)
            out.append((m[0], None))
            i = m.end()
    return out


def clause_names(crates):
    """For each function, the names of its clauses: path -> (requires, ensures); a lone clause has none."""
    out = {}
    for root, dirs, files in os.walk(crates):
        dirs[:] = [d for d in dirs if d != "out"]
        if "/src" not in root:
            continue
        for f in files:
            if not f.endswith(".rt"):
                continue
            path = os.path.join(root, f)
            rel = os.path.relpath(path, crates).split(os.sep)
            parts = [rel[0]] + rel[2:]
            parts[-1] = parts[-1][:-3]
            if parts[-1] in ("lib", "main"):
                parts.pop()
            with open(path, encoding="utf-8") as it:
                text = it.read()
            kind = None
            now = None
            for line in text.split("\n"):
                m = re.match(r"impl(?:<[^>]*>)? (?:\S+ for )?(\w+)", line)
                if m:
                    kind = m[1]
                if line.startswith("}"):
                    kind = None
                m = re.match(r"\s*(?:pub(?:\([a-z]+\))? )?(?:unsafe )?(?:extern \"C\" )?fn (\w+)", line)
                if m:
                    now = "::".join(parts + ([kind] if kind and line.startswith(" ") else []) + [m[1]])
                    out[now] = ([], [])
                m = re.match(r"\s+(requires|ensures)\*? ?(\w*) ?\{", line)
                if m and now:
                    out[now][0 if m[1] == "requires" else 1].append(m[2])
    return out


class Function:
    def __init__(self, names, own, clauses):
        self.own = clauses.get(own, ([], []))
        self.callee = {}
        for _, _, step, callee, _ in names["places"]:
            if callee and callee in clauses:
                self.callee[step[1]] = clauses[callee]
        self.needs = names["needs"]
        self.loops = names["loops"]
        self.changed = names["changed"]
        self.asked = names.get("asked", {})
        self.place = {}
        self.step = {}
        self.placed = {}
        for (old, _, step, _, _), new in zip(names["places"], names["places_by_name"]):
            self.place[key(old)] = new
            self.placed[key(old)] = step[1]
            if step[0]:
                self.step.setdefault(key(step[0]), step[1])
        self.goal = {key(o): n for o, n in self.needs}

    def path(self, m_old):
        return self.step.get(key(m_old))


def turn(text, f, this, helpers):
    """A term in the new names. `this` names the goal that it answers, or None in a helper."""
    THE = r"\((?:the )?(?:the )\(?tie\.(%s)[^()]*\)? \(search\)\)" % W
    THE = r"\(the (?:tie\.(%s)|\(tie\.(%s)[^()]*\)) \(search\)\)" % (W, W)

    def the(m):
        return "c"

    def the_field(m):
        place = key(m[1] or m[2])
        field = m[3]
        new = f.placed.get(place) if f.step.get(key(field)) else None
        if new and key(field) in f.step and f.placed.get(place):
            return "c." + f.placed[place]
        return "c." + (f.step.get(key(field)) or field)

    text = re.sub(THE + r"\.(%s)" % W, the_field, text)

    def the_bare(m):
        place = f.place.get(key(m[1] or m[2]), m[1] or m[2])
        return f"(goal.at.{this} c).{place}" if this else "c." + place

    # a variable for the facts of a place
    LET = r"let (\S+) = the (?:tie\.(%s)|\(tie\.(%s)[^()]*\)) \(search\) in\s*|let (\S+) : tie\.(%s)[^=()]*= search in\s*" % (W, W, W)
    bound = [(m[1] or m[4], m[2] or m[3] or m[5]) for m in re.finditer(LET, text)]
    text = re.sub(LET, "", text)
    for name, place in bound:
        text = re.sub(r"(?<![\w'.-])%s\.(%s)" % (re.escape(name), W), lambda m: "c." + m[1], text)
        new = f.place.get(key(place), place)
        text = re.sub(r"(?<![\w'.-])%s(?![\w'.-])" % re.escape(name), f"(goal.at.{this} c).{new}" if this else "c." + new, text)
    text = re.sub(THE, the_bare, text)
    text = re.sub(r"tie\.((?:After|Then|Else|At|In|Start|Joined|Past|Left)%s|Start)((?: (?:invariant|decreases)-\S+)*)" % W.replace("+", "*"), lambda m: "goal." + f.place.get(key(m[1]), m[1]), text)
    text = re.sub(r"(?<![\w'.])c((?:\.before)+)(?![\w-])", "c", text)

    def field(m):
        new = f.step.get(key(m[1]))
        return "c." + (new or m[1])

    text = re.sub(r"(?<![\w'.])c\.(%s)" % W, field, text)
    text = re.sub(r"not-(?:false|true) _ \(?(c\.(?:if|then|else|loop)%s\.(?:true|false|taken|left))\)?" % W, r"\1", text)
    text = re.sub(r"\.taken(?![\w-])", ".true", text)
    text = re.sub(r"(\.(?:if|then|else|loop)%s)\.left(?![\w-])" % W, r"\1.false", text)
    text = re.sub(r"\.inv(?![\w-])", ".invariant", text)
    text = re.sub(r"\.kept(?![\w-])", ".auto", text)
    text = re.sub(r"\.last(?![\w-])", ".new", text)
    text = re.sub(r"(?<=\.args)\.(%s)" % W, lambda m: "." + m[1].replace("-", "_"), text)
    # clauses by name
    def named(step, which, n):
        names = f.callee.get(step, ([], []))[which]
        return names[int(n)] if len(names) > 1 and int(n) < len(names) else n

    text = re.sub(r"(?<![\w'.])c\.(%s)\.ensures\.(\d)(?![\w-])" % W, lambda m: f"c.{m[1]}.ensures.{named(m[1], 1, m[2])}", text)
    for m in list(re.finditer(r"let (\S+) = c\.(%s)\.ensures in" % W, text)):
        text = re.sub(r"(?<![\w'.-])%s\.(\d)(?![\w-])" % re.escape(m[1]), lambda k: f"{m[1]}.{named(m[2], 1, k[1])}", text)
    for m in list(re.finditer(r"let (\S+) = c\.(%s) in" % W, text)):
        text = re.sub(r"(?<![\w'.-])%s\.ensures\.(\d)(?![\w-])" % re.escape(m[1]), lambda k: f"{m[1]}.ensures.{named(m[2], 1, k[1])}", text)
    text = re.sub(r"\.pre(?![\w-])", ".requires", text)
    if len(f.own[0]) > 1:
        text = re.sub(r"(?<![\w'.-])(\w+)\.requires\.(\d)(?![\w-])", lambda m: f"{m[1]}.requires.{f.own[0][int(m[2])]}" if int(m[2]) < len(f.own[0]) else m[0], text)
    # a helper that takes the facts of a place
    for name, place in helpers.items():
        new = f.place.get(key(place), place)
        if this:
            text = re.sub(r"(?<![\w'.-])%s \(search\)" % re.escape(name), f"{name} (goal.at.{this} c).{new}", text)
    return text


def as_record(term, fields):
    """The term, with the tuple in its last place a record of these fields."""
    s = term.rstrip()
    if len(fields) < 2 or not s.endswith(")"):
        return term
    depth = 0
    for at in range(len(s) - 1, -1, -1):
        if s[at] in ")]}":
            depth += 1
        elif s[at] in "([{":
            depth -= 1
            if depth == 0:
                break
    before = s[:at].rstrip()
    if before and not re.search(r"(=|\bin|\.|^)$", before):
        return term
    inner = s[at + 1 : -1]
    cuts, depth, last = [], 0, 0
    for i, ch in enumerate(inner):
        if ch in "([{":
            depth += 1
        elif ch in ")]}":
            depth -= 1
        elif ch == "," and depth == 0:
            cuts.append(inner[last:i])
            last = i + 1
    if inner[last:].strip():
        cuts.append(inner[last:])
    if len(cuts) != len(fields):
        return term
    parts = [f"{n} = {x.strip()}" for n, x in zip(fields, cuts)]
    one = "record { " + "; ".join(parts) + " }"
    if "\n" in inner or len(one) > 110:
        one = "record {\n      " + ";\n      ".join(parts) + ";\n    }"
    return (before + (" " if before and not before.endswith("=") or len(before) else "") + one).rstrip() if before else " " + one


def fields_of(f, goal):
    if goal in f.asked:
        return f.asked[goal]
    if goal.startswith("returns"):
        return f.own[1] if len(f.own[1]) > 1 else []
    return []


def invariant_args(f, i):
    """The binders of the old invariant, each with its new path."""
    (old, new), variables = f.loops[i]
    changed = f.changed[i]
    paths = []
    for v, c in zip(variables, changed):
        paths.append("l.initial." + v if c else "l." + v)
    for v, c in zip(variables, changed):
        if c:
            paths.append("l." + v)
    return paths


def chunks(text):
    """The declarations: each with the comments above it."""
    lines = text.split("\n")
    out, now = [], []
    for line in lines:
        if line.strip() == "":
            if now:
                out.append("\n".join(now))
            now = []
        else:
            now.append(line)
    if now:
        out.append("\n".join(now))
    # what is indented goes on with what stands above it
    joined = []
    for c in out:
        first = next((l for l in c.split("\n")), "")
        if first.startswith(" ") and joined:
            joined[-1] += "\n\n" + c
        else:
            joined.append(c)
    return joined


def convert(folder, path, names, told, own, clauses):
    proof = os.path.join(folder, "Proof.antt")
    with open(proof, encoding="utf-8") as it:
        text = it.read()
    f = Function(names, own, clauses)
    parts = chunks(text)
    head, body = parts[0], parts[1:]
    if not body:
        told.append(f"{proof}: no declarations")
        return
    heading, uses, rest0 = [], [], []
    for line in head.split("\n"):
        if line.startswith("--"):
            (heading if not uses else rest0).append(line)
        elif line.startswith("use "):
            uses.append(line)
        else:
            rest0.append(line)
    if rest0:
        body.insert(0, "\n".join(rest0))
    spec = body[-1]
    m = re.search(r"(?m)^pub (\S+) : \{M : Type 1\} → statement M\n((?:unfolding [^\n]*\n)?)\1 =\s*tie\.close\s*", spec)
    if not m:
        told.append(f"{proof}: no tie.close")
        return
    before = spec[: m.start()].strip()
    if before and not before.startswith("--"):
        told.append(f"{proof}: something before the spec: {before[:60]}")
    unfolding = m[2].strip()
    rest = spec[m.end() :].strip()
    if rest == "tie.spec" or rest == "(tie.spec)":
        args = []
    else:
        if not rest.startswith("("):
            told.append(f"{proof}: odd spec")
            return
        end = balanced(rest, 0)
        if rest[end:].strip() and not rest[end:].strip().startswith("--"):
            told.append(f"{proof}: more behind the spec: {rest[end:][:60]}")
            return
        inner = rest[1 : end - 1]
        trailing = rest[end:].strip()
        inner = inner.strip()
        if not inner.startswith("tie.spec"):
            told.append(f"{proof}: odd spec 2")
            return
        args = arguments(inner[len("tie.spec") :])
        if trailing and args:
            args[-1] = (args[-1][0], trailing)
    n = 2 * len(f.loops)
    loop_args, need_args = args[:n], args[n:]
    if len(need_args) != len(f.needs):
        told.append(f"{proof}: {len(need_args)} answers for {len(f.needs)} goals: {[x[1] for x in f.needs]}")
    # helpers that take the facts of a place
    helpers = {}
    for c in body[:-1]:
        for h in re.finditer(r"(?m)^\s*(?:abbrev )?(\S+) : \(c : \(?tie\.(%s)" % W, c):
            helpers[h[1]] = h[2]
    invariants, answers = [], []
    used = {}
    for (arg, comment), (old, new) in zip(need_args, f.needs):
        if re.fullmatch(W, arg):
            used.setdefault(arg, []).append((new, comment))
    done = set()
    for c in body[:-1]:
        sig = re.search(r"(?m)^((?:--[^\n]*\n)*)((?:abbrev |pub )*)(\S+) : tie\.(invariant|decreases)-(%s)[^\n]*\n((?:unfolding [^\n]*\n)?)\3((?: [^\s=]+)*) =(.*)\Z" % W, c, re.S)
        if sig:
            i = next((k for k, l in enumerate(f.loops) if key(l[0][0]) == key(sig[5])), None)
            if i is None:
                told.append(f"{proof}: no loop {sig[5]}")
                continue
            new = f.loops[i][0][1]
            binders = sig[7].split()
            paths = invariant_args(f, i)
            if len(binders) != len(paths):
                told.append(f"{proof}: {len(binders)} binders for {len(paths)} of {new}")
            term = sig[8]
            table = dict(zip(binders, paths))
            term = re.sub(r"(?<![\w'.₀-])(%s)" % W, lambda m: table.get(m[1], m[1]) if m[1] != "_" else "_", term)
            name = f"{sig[4]}-{new}"
            invariants.append(f"{sig[1]}abbrev pub {name} : goal.{name}\n{sig[6]}{name} l ={term}")
            done.add(sig[3])
            continue
        sig = re.search(r"(?m)^((?:--[^\n]*\n)*)((?:abbrev |pub )*)(\S+) : tie\.Need-(%s)[^\n]*\n((?:unfolding [^\n]*\n)?)\3((?: [^\s=]+)*) =(.*)\Z" % W, c, re.S)
        if sig:
            name = sig[3]
            new = f.goal.get(key(sig[4]))
            targets = used.get(name)
            if targets:
                new = targets[0][0]
            if not new:
                told.append(f"{proof}: no goal {sig[4]}")
                new = sig[4]
            comment = targets[0][1] if targets and targets[0][1] else ""
            term = as_record(turn(sig[7], f, new, helpers), fields_of(f, new))
            lines = sig[1] + (comment + "\n" if comment else "")
            answers.append(f"{lines}pub {new} : goal.{new}\n{sig[5]}{new} c ={term}")
            done.add(name)
            for other, comment in (targets or [])[1:]:
                told.append(f"{proof}: {name} answers {other} too")
            continue
        answers.append(turn(c, f, None, helpers))
    for (arg, comment), (old, new) in zip(need_args, f.needs):
        if arg in done:
            continue
        inner = arg[1:-1].strip() if arg.startswith("(") else arg
        inner = re.sub(r"\s+", " ", inner) if TRIVIAL.match(re.sub(r"\s+", " ", inner)) else inner
        if TRIVIAL.match(inner) and not (unfolding and re.match(r"returns|loop-.*-(init|preserved)|.*-requires", new)):
            continue
        lam = re.match(r"λ (c|_)( κs| _)?\.\s*(.*)\Z", inner, re.S)
        lines = comment + "\n" if comment else ""
        un = unfolding + "\n" if unfolding else ""
        if lam:
            answers.append(f"{lines}pub {new} : goal.{new}\n{un}{new} {lam[1]} =\n    {as_record(turn(lam[3], f, new, helpers), fields_of(f, new)).lstrip()}")
        else:
            answers.append(f"{lines}pub {new} : goal.{new}\n{un}{new} = {turn(arg, f, new, helpers)}")
    uses = [u for u in uses if not re.search(r"\.(Statement|Tie)(\.| )", u)]
    module = path
    all_places = set(f.place.values())
    cited = set()

    def cite(m):
        cited.add(m[1])
        return m[1]

    answers = [re.sub(r"goal\.((?:After|Then|Else|At|In|Start|Joined|Past|Left)%s|Start)(?![\w-])" % W.replace("+", "*"), cite, a) for a in answers]
    for a in answers:
        for m in re.finditer(r"\(goal\.at\.%s c\)\.(%s)" % (W, W), a):
            cited.add(m[1])
    top = "\n".join(heading)
    if answers:
        own = uses + [f"use {module}.Goals as goal"]
        if cited:
            own.append(f"use {module}.Goals.{{{', '.join(sorted(cited))}}}")
        with open(os.path.join(folder, "Answers.antt"), "w", encoding="utf-8") as it:
            it.write((top + "\n" if top else "") + "\n".join(own) + "\n\n" + "\n\n".join(answers) + "\n")
    if invariants:
        own = uses + [f"use {module}.Given as goal"]
        with open(os.path.join(folder, "Invariants.antt"), "w", encoding="utf-8") as it:
            it.write((top + "\n" if top else "") + "\n".join(own) + "\n\n" + "\n\n".join(invariants) + "\n")
    os.remove(proof)
    if not os.listdir(folder):
        os.rmdir(folder)


def main(crate, list_file):
    with open(list_file, encoding="utf-8") as it:
        names = json.load(it)
    name = os.path.basename(os.path.abspath(crate))
    told = []
    clauses = clause_names(os.path.dirname(os.path.abspath(crate)))
    seen = set()
    for k in sorted(names):
        m = re.fullmatch(r"Rattle-%s-proofs\.(.*)\.Lts" % name, k)
        if not m:
            continue
        folder = os.path.join(crate, "proofs", *m[1].split("."))
        if os.path.exists(os.path.join(folder, "Proof.antt")):
            seen.add(folder)
            try:
                convert(folder, f"Rattle.{name}.proofs.{m[1]}", names[k], told, name + "::" + m[1].replace(".", "::"), clauses)
            except Exception as e:
                told.append(f"{folder}: {e!r}")
    for folder, _, files in os.walk(os.path.join(crate, "proofs")):
        if "Proof.antt" in files:
            told.append(f"left: {folder}")
    for t in told:
        print(t)


main(*sys.argv[1:])
