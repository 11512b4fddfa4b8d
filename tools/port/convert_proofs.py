#!/usr/bin/env python3
"""convert_proofs.py NAMES CRATE [FUNCTION..]    Turns Proof.antt files of the older Rattle, which hand each need of a function to `tie.close`, to
today's Invariants.antt and Answers.antt.

NAMES is the names.json that `rt check --generated FOLDER --old-names` writes in the crate's folder, when proofs/ has no Proof.antt of
these functions. The old files are read from $PORT_PROOFS/CRATE/, where proofs/ of the crate was copied before.
It goes by text: rt check decides.
"""
import json
import os
import re
import sys

INLINE = set(os.environ.get("INLINE", "").split())
CONTEXTS = r"(?:c|s|r|e|b|start|began|at_count|loop|turn|pre|post|w)"


def norm(name):
    return name.replace("-", "_")


# ---- contracts in src/

def functions(crate):
    """For each function, by its path below the crate: the names of its clauses, and its parameters with whether they are &mut."""
    found = {}
    top = f"crates/{crate}/src"
    for folder, _, names in os.walk(top):
        for name in names:
            if not name.endswith(".rt"):
                continue
            path = os.path.relpath(os.path.join(folder, name), top)[:-3].replace("/", ".")
            mod = "" if path in ("lib", "main") else path + "."
            text = open(os.path.join(folder, name), encoding="utf-8").read()
            of = None
            for m in re.finditer(r"^(?:impl (?:[\w<>: ]* for )?(\w+)[^{]*\{|\}|( *)(?:pub(?:\([^)]*\))? )?(?:const |unsafe |extern \"C\" )*fn (\w+)(?:<[^>]*>)?\()", text, re.M):
                if m.group(1):
                    of = m.group(1)
                    continue
                if m.group(0) == "}":
                    of = None
                    continue
                fn = m.group(3)
                at, depth = m.end(), 1
                while depth:
                    depth += {"(": 1, ")": -1}.get(text[at], 0)
                    at += 1
                params = [p.strip() for p in re.split(r",(?![^<\[(]*[>\])])", text[m.end():at - 1]) if p.strip()]
                ps = []
                for p in params:
                    if re.fullmatch(r"&(?:mut )?self|self|mut self", p):
                        ps.append(("self", p.startswith("&mut") or not p.startswith("&"), p.startswith("&")))
                    else:
                        n, t = p.split(":", 1)
                        ps.append((n.replace("mut ", "").strip(), t.strip().startswith("&mut") or re.match(r"&'\w+ mut ", t.strip()) is not None or not re.match(r"&|(?:u8|u16|u32|u64|usize|isize|bool|i32|i64)$", t.strip()), t.strip().startswith("&")))
                # clauses up to the body
                rest = text[at:]
                clauses = {"requires": [], "ensures": []}
                i = 0
                body = re.compile(r"\s*(requires|ensures)\*?(?: (\w+))? \{")
                head = re.match(r"[^{;]*?(?=\n *(?:requires|ensures)|\s*\{|;)", rest)
                i = head.end() if head else 0
                while True:
                    k = body.match(rest, i)
                    if not k:
                        break
                    clauses[k.group(1)].append(k.group(2))
                    j, d = k.end(), 1
                    while d:
                        d += {"{": 1, "}": -1}.get(rest[j], 0)
                        j += 1
                    i = j
                key = mod + (of + "." if of and m.group(2) else "") + fn
                found[key] = (clauses["requires"], clauses["ensures"], ps)
    return found


ALL = {}


def contract(path):
    """Of a path as crate::mod::f or crate::mod::<T>::f."""
    parts = re.sub(r"[<>]", "", path).split("::")
    crate, rest = parts[0], parts[1:]
    if crate not in ALL:
        ALL[crate] = functions(crate) if os.path.isdir(f"crates/{crate}/src") else {}
    return ALL[crate].get(".".join(rest))


# ---- terms

def tuple_parts(text):
    """The parts of a parenthesised tuple, or None."""
    text = text.strip()
    if not text.startswith("("):
        return None
    depth, parts, last = 0, [], 1
    for i, ch in enumerate(text):
        if ch in "([{":
            depth += 1
        elif ch in ")]}":
            depth -= 1
            if depth == 0:
                if text[i + 1:].strip():
                    return None
                parts.append(text[last:i].strip())
                break
        elif ch == "," and depth == 1:
            parts.append(text[last:i].strip())
            last = i + 1
    parts = [p for p in parts if p]
    return parts if len(parts) > 1 else None


def clauses_of(text, k):
    """k clauses of a right-nested pair, as texts, or None."""
    out = []
    while len(out) < k - 1:
        parts = tuple_parts(text)
        if parts is None:
            # `search` or a term that is not a tuple
            return None
        if len(parts) == 2:
            out.append(parts[0])
            text = parts[1]
        else:
            # a flat tuple of all that is left
            if len(parts) == k - len(out):
                return out + parts
            out.append(parts[0])
            text = "(" + ", ".join(parts[1:]) + ")"
    return out + [text.strip()]


def tail(body):
    """Splits a body into its lets and the term behind the last top-level ` in`."""
    depth, at = 0, 0
    for m in re.finditer(r"[()\[\]{}]|(?<![\w'-])in(?![\w'-])", body):
        t = m.group(0)
        if t in "([{":
            depth += 1
        elif t in ")]}":
            depth -= 1
        elif depth == 0:
            at = m.end()
    return body[:at], body[at:]


class Turn:
    def __init__(self, crate, function, entry, text):
        self.crate, self.function, self.entry, self.text = crate, function, entry, text
        self.said = []
        e = entry
        self.needs = {norm(a): b for a, b in e["needs"]}
        self.places = {}
        self.steps = {}
        self.callee = {}
        self.long = {}
        for new, (old, _, step, callee, more) in zip(e["places_by_name"], e["places"]):
            self.places[norm(old)] = new
            if step[0]:
                self.steps[norm(step[0])] = step[1]
                self.steps.setdefault(norm(step[0][:1].upper() + step[0][1:]), step[1])
                if callee:
                    self.callee[norm(step[0])] = callee
                    self.callee[norm(step[0][:1].upper() + step[0][1:])] = callee
                    self.callee[step[1]] = callee
            for a, b in more:
                self.long[norm(a)] = b
        self.typed = {}
        for row in e["typed"]:
            for var, step in row:
                if step:
                    self.typed.setdefault(norm(step), var)
        self.arms = {}
        for row in e["arms"]:
            if row:
                for field, step, proj in row[2]:
                    if proj:
                        self.arms.setdefault(norm(step), {})[tuple(proj)] = f"{row[0]}.{field}"
        self.typed_at = {norm(p[0]): {norm(st) for _, st in row} for p, row in zip(e["places"], e["typed"])}
        self.place_of = {norm(a): norm(old) for (a, _), (old, _) in zip(e["needs"], e["asked_at"])}
        self.asked = {b for _, b in e["asked_at"]}
        self.lts = {norm(p[0]): p[0] for p in e["places"]}
        self.loops = {norm(old): (new, vs) for (old, new), vs in e["loops"]}
        self.own = contract(crate + "::" + function.replace(".", "::"))

    def need(self, name):
        name = norm(name)
        for form in (name, re.sub(r"^(overflow|nonzero|bounds)_", "", name), re.sub(r"^slice_bounds_", "part_", name), re.sub(r"^slice_bounds_", "", name)):
            if form in self.needs:
                return self.needs[form]
        return None

    def is_settled(self, name):
        name = norm(name)
        settled = {norm(s) for s in self.entry["settled"]}
        return name in settled or any(name in s or s in name for s in settled) or name.startswith("same_length")

    # -- paths

    def fix_paths(self, text, place=None):
        steps, typed, callee = self.steps, self.typed, self.callee

        def step(m):
            name = norm(m.group(1))
            if name in typed and m.group(2) is not None:
                return f".type_inv.{typed[name]}"
            return None

        # .shared-slice-known.given -> .type_inv.x
        def given(m):
            name = norm(m.group(1))
            here = self.typed_at.get(place) if place else None
            if name in typed and (here is None or name in here):
                return f".type_inv.{typed[name]}"
            return "." + steps.get(name, m.group(1)) + ".given"

        text = re.sub(r"\.((?:shared-|shared_)?slice[-_]known\d*)\.given\b", given, text)

        def arm(m):
            name = norm(m.group(1))
            if name not in self.arms:
                return m.group(0)
            proj = [p for p in m.group(2).split(".") if p]
            for k in range(len(proj), 0, -1):
                to = self.arms[name].get(tuple(proj[:k]))
                if to:
                    return f".{to}" + "".join("." + p for p in proj[k:])
            return m.group(0)

        text = re.sub(r"\.([\w-]+)((?:\.given|\.ensures)(?:\.\d+)*)", arm, text)

        # drop .before before a field
        text = re.sub(r"(?:\.before)+(?=\.(?!before\b))", "", text)

        # aliases of requires, ensures
        req_alias, ens_alias = set(), {}
        prefix = {}

        def req(m):
            req_alias.add(m.group(1))
            prefix[m.group(1)] = [d for d in (m.group(4) or "").split(".") if d]
            return f"let {m.group(1)} = {m.group(2)}.requires in"

        text = re.sub(r"let ([\w'₀-₉]+) = ((?:\([^()]*\)|[\w'₀-₉-]+)(?:\.[\w'-]+)*?)\.(requires|pre)((?:\.1)*) in", req, text)
        for m in re.finditer(r"let ([\w'₀-₉]+) = (?:\([^()]*\)|[\w'₀-₉-]+)(?:\.[\w'-]+)*?\.([\w'-]+)\.(ensures|post) in", text):
            ens_alias[m.group(1)] = m.group(2)

        def named(names, digits, tail_of):
            """.1.0 .. by the names of right-nested clauses."""
            k = len(names)
            if k < 2 or names[0] is None:
                return None
            ds = digits
            i = 0
            while i < k - 1:
                if not ds:
                    return None
                if ds[0] == "0":
                    return f".{names[i]}" + "".join("." + d for d in ds[1:])
                ds = ds[1:]
                i += 1
            return f".{names[k - 1]}" + "".join("." + d for d in ds)

        own_req = self.own[0] if self.own else []

        def requires(m):
            ds = [d for d in m.group(2).split(".") if d]
            new = named(own_req, ds, None)
            return m.group(1).replace(".pre", ".requires") + (new if new is not None else m.group(2))

        text = re.sub(r"\.pre(?![\w'-])", ".requires", text)
        text = re.sub(r"\.post(?![\w'-])", ".ensures", text)
        text = re.sub(r"\.inv(?![\w'-])", ".invariant", text)
        text = re.sub(r"(\.requires)((?:\.\d+)+)", requires, text)
        for a in req_alias:
            text = re.sub(r"(?<![\w.'-])" + re.escape(a) + r"((?:\.\d+)+)", lambda m: a + (named(own_req, prefix[a] + [d for d in m.group(1).split(".") if d], None) or "".join("." + d for d in prefix[a]) + m.group(1)), text)

        step_alias = {}
        for m in re.finditer(r"let ([\w'₀-₉-]+) = [^;=\n]*?\.([\w'-]+) in", text):
            if norm(m.group(2)) in callee:
                step_alias[m.group(1)] = norm(m.group(2))

        def ens_names(step_name):
            c = callee.get(norm(step_name)) or callee.get(step_name) or callee.get(step_alias.get(step_name, ""))
            info = contract(c) if c else None
            return info[1] if info else []

        def ensures(m):
            ds = [d for d in m.group(2).split(".") if d]
            new = named(ens_names(m.group(1)), ds, None)
            return f"{m.group(1)}.ensures" + (new if new is not None else m.group(2))

        text = re.sub(r"(?<![\w'₀-₉-])([\w'₀-₉-]+)\.ensures((?:\.\d+)+)", ensures, text)
        for a, st in ens_alias.items():
            text = re.sub(r"(?<![\w.'-])" + re.escape(a) + r"((?:\.\d+)+)", lambda m: a + (named(ens_names(st), [d for d in m.group(1).split(".") if d], None) or m.group(1)), text)

        # .new.1.1.0, the third parameter as the call left it
        def new(m):
            c = callee.get(norm(m.group(1))) or callee.get(step_alias.get(m.group(1), ""))
            info = contract(c) if c else None
            if info:
                ds = m.group(3).split(".")
                k = 0
                while k < len(ds) and ds[k] == "1":
                    k += 1
                if k < len(ds) and ds[k] == "0" and k < len(info[2]):
                    return f"{m.group(1)}.{m.group(2)}.{info[2][k][0]}" + "".join("." + d for d in ds[k + 1:])
            return m.group(0)

        text = re.sub(r"(?<![\w'₀-₉-])([\w'₀-₉-]+)\.(?P<kind>new|auto)\.(\d+(?:\.\d+)*)", new, text)

        def rename(m):
            name = norm(m.group(1))
            return "." + self.steps.get(name, m.group(1)) if name in self.steps else m.group(0)

        for a, b in self.entry["args"]:
            a, b = a.replace(" ", ""), b.replace(" ", "")
            if a.startswith(".args.") and a != b:
                text = re.sub(re.escape(a) + r"(?![\w'-])", b, text)
                for al in re.findall(r"let ([\w'₀-₉-]+) = [\w'₀-₉.-]*\.args in", text):
                    text = re.sub(r"(?<![\w'.-])" + re.escape(al + a[5:]) + r"(?![\w'-])", al + b[5:], text)
        # a step stands right behind the record: its variable, a call in parentheses, or an alias of the whole record
        partial = set(re.findall(r"let ([\w'₀-₉-]+) = [\w'₀-₉-]+\.(?!before)[\w'.-]+ in", text))
        partial |= {a for a in re.findall(r"let ([\w'₀-₉-]+) = \([\w' ₀-₉-]+\)\.(?!before)[\w'.-]+ in", text)}

        def step_of(m):
            root, field = m.group(1), m.group(2)
            if root in partial or root in getattr(self, "let_names", ()):
                return m.group(0)
            name = norm(field)
            return root + "." + self.steps.get(name, self.steps.get(re.sub(r"_(\d+)$", r"\1", name), field))

        text = re.sub(r"(?<![\w.'₀-₉-])([a-zA-Zα-ω][\w'₀-₉-]*)\.([a-zA-Z][\w'-]*)(?![\w'-])", step_of, text)
        text = re.sub(r"(\))\.([a-zA-Z][\w'-]*)(?![\w'-])", step_of, text)
        # the test of an `if !x` speaks of x now
        text = re.sub(r"(?<![\w'.])([\w'₀-₉]+\.(?:if|loop)-not-[\w-]*\.(?:true|false))(?![\w'-])", r"(ap not \1)", text)
        for a in set(re.findall(r"let ([\w'₀-₉-]+) = [\w'₀-₉-]+\.(?:if|loop)-not-[\w-]* in", text)):
            text = re.sub(r"(?<![\w'.-])" + re.escape(a) + r"\.(true|false)(?![\w'-])", rf"(ap not {a}.\1)", text)
        return text

    def fix_ties(self, text):
        text = re.sub(r"(?<=\s)(?:(?:invariant|decreases)-loop\d*)(?=[\s)→]|$)(?! :)", "", text) if False else text

        def tie(m):
            name = norm(m.group(1))
            if name.startswith("Need_"):
                n = self.need(name[5:])
                if n is None:
                    return m.group(0)
                return "goal." + n
            if name in self.places:
                if self.places[name] in self.asked:
                    return "goal." + self.places[name]
                self.said.append(f"no goal stands at {name}: say its helper otherwise")
                return "goal." + self.places[name]
            return m.group(0)

        text = re.sub(r"\btie\.([\w'-]+)((?:\s+(?:invariant|decreases)-loop\d*)*)", tie, text)
        return text

    # -- blocks

    def blocks(self):
        lines = self.text.split("\n")
        head, blocks, cur = [], [], None
        for line in lines:
            if cur is None and (line.startswith("--") or line.startswith("use ") or not line.strip()):
                head.append(line)
                continue
            if line and not line[0].isspace() and not line.startswith(")"):
                starts = re.match(r"(?:(?:pub|abbrev|unfoldable|data|record|module|open|mod)\s+)*\S+ .*", line)
                is_sig = re.match(r"^(?:(?:pub|abbrev|unfoldable)\s+)*[^\s(){}]+(?: \{[^}]*\})* :( |$)", line) or re.match(r"^(module|open|data|record|pub data|pub record|struct|pub struct|use)\b", line) or line.startswith("--")
                if is_sig and not (cur and cur[-1].startswith("--")):
                    if cur:
                        blocks.append(cur)
                    cur = []
            if cur is None:
                cur = []
            cur.append(line)
        if cur:
            blocks.append(cur)
        return head, ["\n".join(b).strip("\n") for b in blocks]

    @staticmethod
    def atom(text, at):
        """The end of the argument that begins at `at`, behind a space."""
        if text[at] in "({":
            depth = 0
            for i in range(at, len(text)):
                depth += {"(": 1, ")": -1, "{": 1, "}": -1}.get(text[i], 0)
                if depth == 0:
                    at = i + 1
                    break
            m = re.compile(r"(?:\.[\w'₀-₉-]+)*").match(text, at)
            return m.end()
        m = re.compile(r"[\w'₀-₉-]+(?:\.[\w'₀-₉-]+)*").match(text, at)
        return m.end() if m else at

    def applied(self, text, name, to):
        """Each `name ARG` is `to`."""
        word = re.compile(r"(?<![\w.'₀-₉-])" + re.escape(name) + r"(?![\w'₀-₉-])")
        out, at = "", 0
        while True:
            m = word.search(text, at)
            if not m:
                return out + text[at:]
            end = m.end()
            k = re.compile(r"\s+").match(text, end)
            if not k or k.end() >= len(text) or not re.match(r"[\w(]", text[k.end()]):
                out += text[at:end]
                at = end
                continue
            e = self.atom(text, k.end())
            arg = text[k.end():e]
            # a field behind the parentheses of the call itself is no part of the argument
            out += text[at:m.start()] + to
            at = e

    def inline(self, blocks):
        """Helpers over a place become lets of the answers that use them, or nothing where they only name a place."""
        aliases, lets, order = [], {}, []
        left = []
        self.members = {}
        spread = []
        for b in blocks:
            m = re.match(r"((?:--[^\n]*\n)*)module _ \((\w+) : (tie\.[\w'-]+(?:\s+(?:invariant|decreases)-loop\d*)*)\) where\n(.*)$", b, re.S)
            if not m:
                spread.append(b)
                continue
            var, place, inner = m.group(2), m.group(3), m.group(4)
            lines = [l[2:] if l.startswith("  ") else l for l in inner.split("\n")]
            parts, cur = [], []
            for l in lines:
                if l.strip() and not l[0].isspace() and cur and not cur[-1].startswith("--") and re.match(r"(?:--|(?:(?:pub|abbrev|unfoldable)\s+)*[^\s(){}]+ :)", l):
                    parts.append("\n".join(cur).strip("\n"))
                    cur = []
                cur.append(l)
            parts.append("\n".join(cur).strip("\n"))
            names = []
            for p in parts:
                k = re.match(r"((?:--[^\n]*\n)*)((?:(?:pub|abbrev|unfoldable)\s+)*)([^\s(){}]+) :\s*(.*)$", p, re.S)
                if not k:
                    self.said.append("a member of a module: " + p[:60])
                    continue
                name = k.group(3)
                names.append(name)
                rest = re.sub(r"^" + re.escape(name) + r"(?=(?: [^=\n:]*)? =)", name + " " + var, k.group(4), count=1, flags=re.M)
                spread.append(f"{k.group(1)}{k.group(2)}{name} : ({var} : {place}) → {rest}")
            for n in names:
                self.members[n] = set(names)
        blocks = spread
        for b in blocks:
            m = re.match(r"((?:--[^\n]*\n)*)(.*)", b, re.S)
            core = m.group(2)
            sig = re.match(r"(?:(?:pub|abbrev|unfoldable)\s+)*([^\s(){}]+) :\s*(.*)", core, re.S)
            if not sig or re.search(r"tie\.close|statement M|^\S+ :\s*tie\.(?:Need|invariant|decreases)", re.sub(r"^(?:(?:pub|abbrev|unfoldable)\s+)*", "", core)):
                left.append(b)
                continue
            name = sig.group(1)
            eq = re.search(r"^" + re.escape(name) + r"((?: +[\w'₀-₉-]+)*) =\s*(.*)$", core, re.M | re.S)
            if not eq or "tie." not in core[:eq.start()]:
                left.append(b)
                continue
            typ = core[:eq.start()]
            typ = re.sub(r"^(?:(?:pub|abbrev|unfoldable)\s+)*" + re.escape(name) + r" :\s*", "", typ)
            unf = re.findall(r"^unfolding (.*)$", typ, re.M)
            typ = re.sub(r"^unfolding .*\n?", "", typ, flags=re.M).strip()
            args = eq.group(1).split()
            body = eq.group(2).strip()
            inv = r"(?:\s+(?:invariant|decreases)-loop\d*)*"
            t = re.match(r"\((\w+) : tie\.[\w'-]+" + inv + r"\)\s*(?:→\s*)?(.*)$", typ, re.S) or re.match(r"()tie\.[\w'-]+" + inv + r"\s*→\s*(.*)$", typ, re.S)
            if not t or not args:
                left.append(b)
                continue
            bound, rest = t.group(1) or args[0], t.group(2).strip()
            if bound != args[0]:
                rest = re.sub(r"(?<![\w.'-])" + re.escape(bound) + r"(?![\w'-])", args[0], rest)
            if args[0] != "c":
                rest = re.sub(r"(?<![\w.'-])" + re.escape(args[0]) + r"(?![\w'-])", "c", rest)
                body = re.sub(r"(?<![\w.'-])" + re.escape(args[0]) + r"(?![\w'-])", "c", body)
            if re.match(r"tie\.[\w'-]+" + inv + r"\s*$", rest):
                aliases.append(name)
                continue
            if len(args) > 1:
                body = "λ " + " ".join(args[1:]) + ". " + body
            lets[name] = (rest, body, unf, "abbrev" in core[:sig.start(1)])
            order.append(name)
        return left, aliases, lets, order

    def run(self):
        head, blocks = self.blocks()
        unasked = any(norm(x) in self.places and self.places[norm(x)] not in self.asked for x in re.findall(r"tie\.((?!Need)[\w'-]+)", self.text))
        aliases, lets, order = [], {}, []
        self.flat = unasked or any(self.entry["arms"]) or self.function in INLINE
        if self.flat:
            blocks, aliases, lets, order = self.inline(blocks)

        self.let_names = set(order)

        def flatten(text, own=()):
            for a in aliases:
                if a not in own:
                    text = self.applied(text, a, "c")
            for n in order:
                if n not in own:
                    text = self.applied(text, n, n)
            text = re.sub(r"(?:\.before)+(?![\w'-])", "", text)
            text = re.sub(r"\(c\)", "c", text)
            text = re.sub(r"\((" + "|".join(map(re.escape, order)) + r")\)", r"\1", text) if order else text
            return text

        if self.flat:
            lets = {n: (flatten(t, self.members.get(n, ())), flatten(b, self.members.get(n, ())), u, ab) for n, (t, b, u, ab) in lets.items()}

        def with_lets(core, name):
            """The equation with the lets that it uses in front."""
            m = re.match(r"((?:[^\n]*\n)*?" + re.escape(name) + r" c(?: κs?| _)? =)(.*)$", core, re.S)
            if not m:
                return core
            front, body = m.group(1), flatten(m.group(2))
            need, todo = set(), body
            used_in = lambda text: {n for n in order if re.search(r"(?<![\w.'₀-₉-])" + re.escape(n) + r"(?![\w'₀-₉-])", text)}
            more = used_in(body)
            while more - need:
                n = (more - need).pop()
                need.add(n)
                more |= used_in(lets[n][0] + " " + lets[n][1])
            unf = []
            text = ""
            for n in order:
                if n in need:
                    t, b, u, _ = lets[n]
                    unf += u
                    text += f"\n    let {n} : {t} =\n      ({b}) in" if not re.match(r"^[\w'.₀-₉]+$", b) else f"\n    let {n} : {t} = {b} in"
            if unf:
                lines = front.split("\n")
                have = [l for l in lines if l.startswith("unfolding ")]
                words = []
                for l in have:
                    words += l.split()[1:]
                for u in unf:
                    words += [w for w in u.split() if w not in words]
                lines = [l for l in lines if not l.startswith("unfolding ")]
                lines.insert(len(lines) - 1, "unfolding " + " ".join(dict.fromkeys(words)))
                front = "\n".join(lines)
            return front + text + ("\n    " + body.strip() if text else body)
        invariants, answers, helpers = [], [], []
        renamed = {}
        kept = []
        for b in blocks:
            comment = ""
            core = b
            m = re.match(r"((?:--[^\n]*\n)*)(.*)", b, re.S)
            comment, core = m.group(1), m.group(2)
            sig = re.match(r"(?:(?:pub|abbrev|unfoldable)\s+)*([^\s(){}]+)(?: \{[^}]*\})* :\s*(.*)", core, re.S)
            if not sig:
                kept.append(("other", b))
                continue
            name, rest = sig.group(1), sig.group(2)
            if re.search(r"\btie\.close\b|statement M", core):
                continue
            inv = re.match(r"tie\.(invariant|decreases)-(loop\d*)\b", rest)
            if inv:
                kept.append(("inv", comment, name, inv.group(1), inv.group(2), core))
                continue
            need = re.match(r"tie\.Need-([\w'-]+)", rest)
            if need and re.match(r"tie\.Need-[\w'-]+((?:\s+(?:invariant|decreases)-loop\d*)*)\s*\n", rest):
                new = self.need(need.group(1))
                if new is None:
                    if not self.is_settled(need.group(1)):
                        self.said.append(f"gone, and not settled: {name} ({need.group(1)})")
                    kept.append(("gone", name))
                    continue
                renamed[name] = new
                kept.append(("need", comment, name, new, need.group(1), core))
                continue
            kept.append(("helper", b))
        told = {}
        # the text of each
        inv_out, ans_out = [], []
        word = lambda n: r"(?<![\w.'₀-₉-])" + re.escape(n) + r"(?![\w'₀-₉-])"
        any_name = re.compile(r"(?<![\w.'₀-₉-])(" + "|".join(re.escape(a) for a in sorted(renamed, key=len, reverse=True)) + r")(?![\w'₀-₉-])") if renamed else None
        def rename_names(text):
            return any_name.sub(lambda m: renamed[m.group(1)], text) if any_name else text
        gone = {k[1] for k in kept if k[0] == "gone"}
        for k in kept:
            if k[0] == "inv":
                _, comment, name, kind, loop, core = k
                new, live = self.loops.get(loop, (loop, []))
                eq = re.search(r"^" + re.escape(name) + r"((?: +[\w'₀-₉-]+)*) =\s*(.*)$", core, re.M | re.S)
                unf = re.findall(r"^unfolding .*$", core, re.M)
                args = eq.group(1).split()
                body = eq.group(2)
                L = "l" if "l" not in args else "live"
                for a in args:
                    base = a.rstrip("₀₁₂")
                    cur = a
                    if a == "_":
                        continue
                    # a₀ stands for the value when the loop began; where the loop changes it, l.initial.a
                    if a.endswith("₀") and base in live:
                        idx = live.index(base)
                        to = f"{L}.initial.{base}"
                        if base not in args:
                            to = f"{L}.{base}"
                    elif base in live:
                        to = f"{L}.{base}"
                    else:
                        to = f"{L}.{a}"
                        self.said.append(f"{name}: argument {a} is no live variable of {live}")
                    body = re.sub(word(a), to, body)
                body = re.sub(r"\((l|live)\.([\w.]+)\)", r"\1.\2", body)
                inv_out.append(comment + f"abbrev pub {kind}-{new} : goal.{kind}-{new}\n" + "".join(u + "\n" for u in unf) + f"{kind}-{new} {L} = {body}")
            elif k[0] == "need":
                _, comment, name, new, old, core = k
                core = re.sub(r"^(?:pub )?" + re.escape(name) + r" :\s*tie\.Need-[\w'-]+(?:\s+(?:invariant|decreases)-loop\d*)*\s*\n", f"pub {new} : goal.{new}\n", core)
                first, rest_of = core.split("\n", 1)
                rest_of = rename_names(rest_of)
                core = first + "\n" + self.fix_ties(rest_of)
                for g in gone:
                    core = re.sub(r"\(" + re.escape(g) + r" c(?:\.before)*\)", "(omega arith)", core)
                if self.flat:
                    core = with_lets(core, new)
                trivial = re.match(r"(?:[^\n]*\n)*?" + re.escape(new) + r" c(?: κs?| _)? =\s*(search rules|tt)\s*$", core)
                if trivial and "unfolding" not in core:
                    continue
                core = re.sub(r"^(" + re.escape(new) + r" c) κs?(?= )", r"\1", core, flags=re.M)
                core = re.sub(r"^(" + re.escape(new) + r" c) _(?= =)", r"\1", core, flags=re.M)
                core = self.fix_paths(core, next((v for k_, v in self.place_of.items() if self.needs.get(k_) == new), None))
                asked = next((v for k_, v in self.entry["asked"].items() if norm(k_) == norm(old)), None)
                if asked is None and re.match(r"returns(-\d+)?$", old):
                    names = self.own[1] if self.own else []
                    if len(names) > 1 and names[0]:
                        asked = names
                if asked and len(asked) > 1:
                    m = re.match(r"((?:[^\n]*\n)*?" + re.escape(new) + r" c =)(.*)$", core, re.S)
                    if m:
                        front_lets, term = tail(m.group(2))
                        parts = clauses_of(term, len(asked))
                        if parts:
                            core = m.group(1) + front_lets + " record {\n" + "".join(f"      {a} = {p};\n" for a, p in zip(asked, parts)) + "    }"
                        else:
                            key = tuple(asked)
                            if key not in told:
                                told[key] = "clauses" if not told else f"clauses_{len(told) + 1}"
                            term = term.strip()
                            core = m.group(1) + front_lets + (" " if "\n" not in m.group(2).strip() else "\n    ") + f"{told[key]} ({term})"
                    else:
                        self.said.append(f"{new}: no plain equation; clauses {asked}")
                ans_out.append(comment + core)
            elif k[0] == "helper":
                text = self.fix_paths(rename_names(self.fix_ties(k[1])))
                ans_out.append(text)
            elif k[0] == "other":
                ans_out.append(self.fix_paths(rename_names(self.fix_ties(k[1]))))
        for key, name in reversed(list(told.items())):
            letters = [chr(ord("A") + i) for i in range(len(key))]
            typ = letters[-1]
            for l in reversed(letters[:-1]):
                typ = f"{l} × {typ}" if " " not in typ else f"{l} × ({typ})"
            fields = "; ".join(f"{n} : {l}" for n, l in zip(key, letters))
            parts = "; ".join(f"{n} = all{'.1' * i}{'.0' if i < len(key) - 1 else ''}" for i, n in enumerate(key))
            ans_out.insert(0, f"-- facts of all clauses as a record of them\n{name} : {{{' '.join(letters)} : Type 0}} → {typ} → record {{ {fields} }}\n{name} all = record {{ {parts} }}")
        # what invariants cite stands beside them
        self.shared = []
        inv_text = "\n".join(inv_out)
        moved, go = [], True
        def declared(text):
            m = re.match(r"(?:--[^\n]*\n)*(?:(?:pub|abbrev|unfoldable|data|record)\s+)*([^\s(){}]+)", text)
            return m.group(1) if m else ""
        while go:
            go = False
            for a in list(ans_out):
                if re.match(r"(?:--[^\n]*\n)*pub \S+ : goal\.", a):
                    continue
                n = declared(a)
                if n and "goal." not in a and re.search(r"(?<![\w.'₀-₉-])" + re.escape(n) + r"(?![\w'₀-₉-])", inv_text):
                    ans_out.remove(a)
                    a = a if re.match(r"(?:--[^\n]*\n)*(?:\w+ )*pub ", a) else re.sub(r"^((?:--[^\n]*\n)*)((?:(?:abbrev|unfoldable)\s+)?)", r"\1\2pub ", a)
                    moved.append(a)
                    self.shared.append(n)
                    inv_text += a
                    go = True
        inv_out = moved + inv_out
        head_text = "\n".join(h for h in head if h.strip())
        head_text = re.sub(r"^use Rattle\.[\w.+]*\.Statement\.\{[^}]*\}\n?", "", head_text, flags=re.M)
        own_path = None
        m = re.search(r"^use (Rattle\.[\w.+]+)\.Tie as tie$", head_text, re.M)
        own_path = m.group(1) if m else f"Rattle.{self.crate}.proofs.{self.function}"
        head_text = re.sub(r"^use Rattle\.[\w.+]*\.Tie as tie\n?", "", head_text, flags=re.M).rstrip("\n")
        comments = "\n".join(l for l in head_text.split("\n") if l.startswith("--"))
        uses = [l for l in head_text.split("\n") if l.startswith("use ")]
        return comments, uses, own_path, inv_out, ans_out


def split_uses(lines):
    out = []
    for l in lines:
        m = re.match(r"use ([^\s{]+)\.\{([^}]*)\}$", l)
        if m:
            for n in m.group(2).split(","):
                n = n.strip()
                if n:
                    out.append((m.group(1), n))
        else:
            out.append((l, None))
    return out


def used(uses, text):
    """The use lines that the text needs."""
    lines = {}
    order = []
    for mod, n in split_uses(uses):
        if n is None:
            alias = re.search(r" as (\S+)$", mod)
            a = alias.group(1) if alias else mod.split(".")[-1].rstrip()
            if re.search(r"(?<![\w'-])" + re.escape(a) + r"\.", text):
                order.append((mod, None))
            continue
        shown = n.split(" as ")[-1].strip()
        op = shown.strip("◌")
        if "◌" in shown:
            hit = all(p in text for p in shown.split("◌") if p)
        else:
            hit = re.search(r"(?<![\w.'₀-₉-])" + re.escape(shown) + r"(?![\w'₀-₉-])", text)
        if hit:
            if mod not in lines:
                lines[mod] = []
                order.append((mod, lines[mod]))
            lines[mod].append(n)
    return [mod if ns is None else f"use {mod}.{{{', '.join(ns)}}}" for mod, ns in order]


def main():
    names = json.load(open(sys.argv[1]))
    crate = sys.argv[2]
    only = sys.argv[3:]
    base = os.path.join(os.environ["PORT_PROOFS"], crate)
    for key, entry in sorted(names.items()):
        m = re.match(r"Rattle-" + re.escape(crate) + r"-proofs\.(.*)\.Lts$", key)
        if not m:
            continue
        function = m.group(1)
        if only and function not in only:
            continue
        path = os.path.join(base, *function.split("."), "Proof.antt")
        if not os.path.isfile(path):
            continue
        text = open(path, encoding="utf-8").read()
        if "as tie" not in text:
            print(f"{function}: a walk by hand")
            continue
        t = Turn(crate, function, entry, text)
        comments, uses, own, inv, ans = t.run()
        to = os.path.join(f"crates/{crate}/proofs", *function.split("."))
        os.makedirs(to, exist_ok=True)
        if inv:
            body = "\n\n".join(inv)
            head = (comments + "\n" if comments else "")
            u = used(uses, body)
            open(os.path.join(to, "Invariants.antt"), "w", encoding="utf-8").write(head + "\n".join(u + [f"use {own}.Given as goal"]) + "\n\n" + body + "\n")
        if ans:
            body = "\n\n".join(ans)
            u = used(uses, body)
            extra = []
            if re.search(r"\(ap not ", body):
                have = "\n".join(u)
                if not re.search(r"(?<![\w'-])ap(?![\w'₀-₉-])", have):
                    extra.append("use mathlib.Core.Path.{ap}")
                if not re.search(r"(?<![\w'-])not(?![\w'₀-₉-])", have):
                    extra.append("use mathlib.Core.Bool.{not}")
            cited = [n for n in t.shared if re.search(r"(?<![\w.'₀-₉-])" + re.escape(n) + r"(?![\w'₀-₉-])", body)]
            if cited:
                extra.append(f"use {own}.Invariants.{{{', '.join(cited)}}}")
            u = extra + u
            if "lts." in body:
                u.append(f"use {own}.Lts as lts")
            head = "" if inv else (comments + "\n" if comments else "")
            open(os.path.join(to, "Answers.antt"), "w", encoding="utf-8").write(head + "\n".join(u + [f"use {own}.Goals as goal"]) + "\n\n" + body + "\n")
        old = os.path.join(to, "Proof.antt")
        if os.path.isfile(old):
            os.remove(old)
        for s in t.said:
            print(f"{function}: {s}")


if __name__ == "__main__":
    main()
