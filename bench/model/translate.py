#!/usr/bin/env python3
"""Unproved model: a mechanical translation of hgpart's Rattle sources to plain Rust.

usage: translate.py [--unchecked] [--bench] REPO OUT

--unchecked   `x[i]` on slices and lists tests no bound, as in Rattle
--bench       with the programs of REPO/bench, too
"""
import os
import re
import shutil
import sys

HERE = os.path.dirname(os.path.abspath(__file__))

TOKEN = re.compile(r"""
    (?P<ws>\s+)
  | (?P<lc>//[^\n]*)
  | (?P<bc>/\*.*?\*/)
  | (?P<str>b?r(?P<h>\#*)".*?"(?P=h) | b?c?"(?:\\.|[^"\\])*")
  | (?P<chr>b?'(?:\\(?:x[0-9a-fA-F]{2}|u\{[^}]*\}|.)|[^'\\\n])')
  | (?P<life>'[A-Za-z_]\w*)
  | (?P<num>\d[\w]*(?:\.\d[\w]*)?)
  | (?P<id>[A-Za-z_]\w*)
  | (?P<op>::|->|=>|\.\.=|\.\.\.|\.\.|&&|\|\||<<=|>>=|==|!=|<=|>=|\+=|-=|\*=|/=|%=|\^=|&=|\|=|.)
""", re.X | re.S)


def tokens(text):
    out = []
    i = 0
    n = len(text)
    while i < n:
        # a clause or a ghost item is skipped as raw text, since antt is no Rust
        m = re.compile(r"\b(requires|ensures)\b\*?").match(text, i)
        if m and (i == 0 or not (text[i - 1].isalnum() or text[i - 1] in "_.")):
            j = text.index("{", m.end())
            if re.fullmatch(r"\s*[\w«»]*\s*", text[m.end():j]):
                end = skip_group(text, j)
                out.append(("ws", " " + "\n" * text[i:end].count("\n")))
                i = end
                continue
        m = re.compile(r"(pub(\([a-z ]+\))?\s+)?ghost\b").match(text, i)
        if m and (i == 0 or not (text[i - 1].isalnum() or text[i - 1] in "_.")):
            end = skip_ghost(text, m.end())
            out.append(("ws", " " + "\n" * text[i:end].count("\n")))
            i = end
            continue
        m = TOKEN.match(text, i)
        kind = m.lastgroup
        if kind == "h":
            kind = "str"
        for k in ("ws", "lc", "bc", "str", "chr", "life", "num", "id", "op"):
            if m.group(k) is not None:
                kind = k
                break
        said = m.group(0)
        if kind == "lc" and said.startswith("///"):
            said = "// /" + said[3:]  # its item may be a ghost that goes
        out.append((kind, said))
        i = m.end()
    return out


def skip_group(text, j):
    """Behind the balanced braces that begin at j."""
    depth = 0
    while True:
        c = text[j]
        if c in "{([":
            depth += 1
        elif c in "})]":
            depth -= 1
            if depth == 0:
                return j + 1
        j += 1


def skip_ghost(text, j):
    depth = 0
    while True:
        c = text[j]
        if c in "{([":
            depth += 1
        elif c in "})]":
            if depth == 0:
                return j
            depth -= 1
        elif c in ";," and depth == 0:
            return j + 1
        j += 1


class Stream:
    def __init__(self, toks):
        self.t = toks

    def real(self, i):
        """The place of the first real token from i on."""
        while i < len(self.t) and self.t[i][0] in ("ws", "lc", "bc"):
            i += 1
        return i

    def text(self, i):
        return self.t[i][1] if i < len(self.t) else ""

    def group(self, i):
        """Behind the balanced group that begins at i."""
        depth = 0
        while i < len(self.t):
            k, s = self.t[i]
            if k == "op":
                if s in "{([":
                    depth += 1
                elif s in "})]":
                    depth -= 1
                    if depth == 0:
                        return i + 1
            i += 1
        raise ValueError("unbalanced")


def drop_range(toks, a, b):
    """Removes tokens, keeping the line breaks so that lines keep their numbers."""
    lines = "".join(s for _, s in toks[a:b]).count("\n")
    toks[a:b] = [("ws", "\n" * lines)] if lines else [("ws", " ")]


def drop_attributes(toks):
    s = Stream(toks)
    i = 0
    while i < len(toks):
        if toks[i] == ("op", "#"):
            j = s.real(i + 1)
            if s.text(j) == "!":
                j = s.real(j + 1)
            if s.text(j) == "[":
                end = s.group(j)
                name = s.text(s.real(j + 1))
                body = "".join(t for _, t in toks[j + 1:end - 1])
                if name in ("tactic", "cycle", "must_use"):
                    drop_range(toks, i, end)
                elif name == "derive":
                    traits = [x.strip() for x in body[body.index("(") + 1:body.rindex(")")].split(",")]
                    kept = [x for x in traits if x and x not in ("Drop",)]
                    lines = body.count("\n")
                    toks[i:end] = [("op", "#[derive(" + ", ".join(kept) + ")]" + "\n" * lines)] if kept else [("ws", "\n" * lines + " ")]
                elif name == "cfg" and re.fullmatch(r"cfg\s*\(\s*test\s*\)", body.strip()):
                    # the item goes too
                    k = s.real(end)
                    while s.text(k) == "#":
                        k = s.real(s.group(s.real(k + 1)))
                    while s.text(k) not in (";", "{"):
                        k += 1
                    k = k + 1 if s.text(k) == ";" else s.group(k)
                    drop_range(toks, i, k)
                elif name == "test":
                    k = s.real(end)
                    while s.text(k) != "{":
                        k += 1
                    drop_range(toks, i, s.group(k))
        i += 1


GHOST_TRAITS = ("Model", "Owns", "Drop", "TableRule_")


def drop_impls(toks):
    """Drops `impl .. Model for .. {..}`."""
    s = Stream(toks)
    i = 0
    while i < len(toks):
        if toks[i] == ("id", "impl"):
            # an impl item: the token before is a line's begin, `;`, `}` or `unsafe`
            p = i - 1
            while p >= 0 and toks[p][0] in ("ws", "lc", "bc"):
                p -= 1
            before = toks[p][1] if p >= 0 else ";"
            if before in (";", "}", "unsafe", "]"):
                j = i
                while s.text(j) not in ("{", ";"):
                    j += 1
                head = [t for k, t in toks[i:j] if k not in ("ws", "lc", "bc")]
                if "for" in head:
                    f = head.index("for")
                    trait = head[f - 1]
                    if trait in ("Model", "Owns"):
                        end = s.group(j) if s.text(j) == "{" else j + 1
                        drop_range(toks, p + 1 if before != "unsafe" else p, end)
        i += 1


def drop_drop_bounds(toks):
    """`+ Drop` goes, and so do `: Drop`, where nothing else stands."""
    s = Stream(toks)
    i = 0
    while i < len(toks):
        if toks[i] == ("id", "Drop"):
            p = i - 1
            while p >= 0 and toks[p][0] == "ws":
                p -= 1
            n = s.real(i + 1)
            if toks[p][1] == "+":
                drop_range(toks, p, i + 1)
                i = p
            elif toks[p][1] == ":" and s.text(n) == "+":
                drop_range(toks, i, n + 1)
            elif toks[p][1] == ":" and s.text(n) in (",", ">", "{", "="):
                drop_range(toks, p, i + 1)
                i = p
        i += 1


def size_traits(toks):
    """A trait whose methods answer `Self` is of sized types."""
    s = Stream(toks)
    i = 0
    while i < len(toks):
        if toks[i] == ("id", "trait"):
            j = i
            while s.text(j) not in ("{", ";"):
                j += 1
            if s.text(j) == "{":
                end = s.group(j)
                head = [t for _, t in toks[i:j]]
                answers = False
                for m in range(j, end):
                    if toks[m] == ("id", "Self") and s.text(s.real(m + 1)) != "::":
                        p = m - 1
                        while toks[p][0] == "ws":
                            p -= 1
                        if toks[p][1] in ("->", "<", ",", "("):
                            answers = True
                if answers and "Sized" not in head:
                    p = j - 1
                    while toks[p][0] in ("ws", "lc", "bc"):
                        p -= 1
                    toks[p] = (toks[p][0], toks[p][1] + (" + Sized" if ":" in head else ": Sized"))
        i += 1


# methods whose Rattle form answers a Result or takes an allocator, and would clash with Rust's
METHODS = {
    "collect": "r_collect",
    "clone": "r_clone",
    "to_vec": "r_to_vec",
    "sort": "r_sort",
    "sort_by": "r_sort_by",
    "sort_by_key": "r_sort_by_key",
    "to_owned": "r_to_owned",
    "to_string": "r_to_string",
    "concat": "r_concat",
    "join_text": "r_join",
}
# macros: an allocator or a handle stands before a `;`
MACROS = {"vec": "rvec", "format": "rformat", "println": "rprintln", "eprintln": "reprintln",
          "print": "rprint", "eprint": "reprint", "prove": "rprove", "prove_eq": "rprove", "prove_ne": "rprove",
          "assert": "rassert", "assert_eq": "rassert_eq", "assert_ne": "rassert_ne",
          "write": "rwrite", "writeln": "rwriteln", "panic": "rpanic"}


def rewrite(toks):
    s = Stream(toks)
    i = 0
    while i < len(toks):
        k, t = toks[i]
        n = s.real(i + 1)
        p = i - 1
        while p >= 0 and toks[p][0] in ("ws", "lc", "bc"):
            p -= 1
        prev = toks[p][1] if p >= 0 else ""
        if k == "id":
            if t in ("std", "core") and s.text(n) == "::" and prev not in ("::", "."):
                toks[i] = (k, "rstd")
            elif t == "final" and s.text(n) in ("fn", "pub"):
                toks[i] = ("ws", " ")
            elif prev == "." and t in METHODS and s.text(n) in ("(", "::"):
                toks[i] = (k, METHODS[t])
            elif t == "Box" and s.text(n) == "::" and s.text(s.real(n + 1)) == "new":
                m = s.real(n + 1)
                toks[i] = (k, "rstd")
                toks[m] = ("id", "box_new")
            elif t in MACROS and s.text(n) == "!" and s.text(s.real(n + 1)) in ("(", "[", "{"):
                toks[i] = (k, "rstd::" + MACROS[t])
                o = s.real(s.real(n + 1) + 1)
                if s.text(o) == "in":
                    toks[o] = ("ws", " ")
        i += 1


# idents behind which `[` begins no index
NO_BASE = {"mut", "return", "in", "match", "if", "else", "as", "dyn", "ref", "move", "let", "break", "while", "impl",
           "const", "for", "where", "static", "loop", "unsafe", "fn", "use", "pub", "box", "yield"}


def uncheck(toks):
    """`x[i]` becomes `x[rstd::ix_..(i)]`, whose `Index` tests no bound."""
    s = Stream(toks)
    i = 0
    while i < len(toks):
        if toks[i] == ("op", "["):
            p = i - 1
            while p >= 0 and toks[p][0] in ("ws", "lc", "bc"):
                p -= 1
            k, t = toks[p] if p >= 0 else ("op", ";")
            if (k == "id" and t not in NO_BASE) or (k == "op" and t in (")", "]")) and not is_attribute(toks, p):
                end = s.group(i)
                dots = None
                depth = 0
                for m in range(i + 1, end - 1):
                    mk, mt = toks[m]
                    if mk == "op":
                        if mt in "{([":
                            depth += 1
                        elif mt in "})]":
                            depth -= 1
                        elif mt in ("..", "..=") and depth == 0:
                            dots = m
                if dots is None:
                    fn = "ix"
                else:
                    left = "".join(x for q, x in toks[i + 1:dots] if q not in ("ws", "lc", "bc"))
                    right = "".join(x for q, x in toks[dots + 1:end - 1] if q not in ("ws", "lc", "bc"))
                    if toks[dots][1] == "..=" or not (left or right):
                        fn = None
                    else:
                        fn = "ix_range" if left and right else "ix_from" if left else "ix_to"
                if fn:
                    toks[i] = ("op", "[")
                    toks.insert(i + 1, ("id", "rstd::" + fn + "("))
                    toks.insert(end, ("op", ")"))
        i += 1
    # the openers that were put in are no groups of their own: join them only now
    return


def is_attribute(toks, p):
    """Whether the `]` at p ends an attribute."""
    if toks[p][1] != "]":
        return False
    depth = 0
    while p >= 0:
        if toks[p][0] == "op":
            if toks[p][1] in "})]":
                depth += 1
            elif toks[p][1] in "{([":
                depth -= 1
                if depth == 0:
                    break
        p -= 1
    p -= 1
    while p >= 0 and toks[p][0] in ("ws", "lc", "bc"):
        p -= 1
    return p >= 0 and toks[p][1] in ("#", "!")


UNCHECKED = False


def translate(text, root):
    text = re.sub(r"fn main\(rt: HostRuntime\)(\s*->\s*([^{]+?))?(?=\s*\{)", lambda m: "fn main()" + (m.group(1) or "")
                  + " { r_main(HostRuntime) } fn r_main(rt: HostRuntime)" + (m.group(1) or ""), text)
    toks = tokens(text)
    drop_attributes(toks)
    drop_impls(toks)
    drop_drop_bounds(toks)
    size_traits(toks)
    rewrite(toks)
    if UNCHECKED:
        uncheck(toks)
    text = "".join(s for _, s in toks)
    lines = text.split("\n")
    head = 0
    while head < len(lines) and (lines[head].startswith("//!") or lines[head].startswith("#!") or not lines[head].strip()):
        head += 1
    # the prelude goes on the last of the head's lines or before the first item, so that lines keep their numbers
    prelude = ("#![allow(warnings)] " if root else "") + "#[allow(unused_imports)] use rstd::prelude::*; "
    if head >= len(lines):
        lines.append(prelude)
    else:
        lines[head] = prelude + lines[head]
    return "\n".join(lines)


def inner_modules(text):
    """Modules that are written in place need the prelude too."""
    return re.sub(r"^(\s*(?:pub(?:\([a-z ]+\))? )?mod \w+ \{)", r"\1 #[allow(unused_imports)] use rstd::prelude::*;", text, flags=re.M)


def read_crates(path):
    deps = {}
    for line in open(path, encoding="utf-8"):
        line = line.split("#")[0].strip()
        if not line:
            continue
        head, _, tail = line.partition(":")
        deps[head.split()[0]] = tail.split()
    return deps


def write(path, text):
    os.makedirs(os.path.dirname(path), exist_ok=True)
    if os.path.exists(path) and open(path, encoding="utf-8").read() == text:
        return
    with open(path, "w", encoding="utf-8") as f:
        f.write(text)


PROFILE = """
[profile.release]
opt-level = 3
debug = 1
panic = "abort"
overflow-checks = false
codegen-units = 1
lto = "fat"

[profile.quick]
inherits = "release"
lto = "off"
codegen-units = 4
"""


def plain(file):
    """The name of a source: those of bench/ end in .rt.txt."""
    return file[:-4] if file.endswith(".rt.txt") else file


def own_names(folders):
    """The functions that the repository itself declares: a method of such a name is not std's."""
    found = set()
    for src in folders.values():
        for folder, dirs, files in os.walk(src):
            for file in files:
                if plain(file).endswith(".rt"):
                    found.update(re.findall(r"\bfn (\w+)", open(os.path.join(folder, file), encoding="utf-8").read()))
    return found


def main():
    global UNCHECKED
    args = [a for a in sys.argv[1:] if not a.startswith("--")]
    flags = [a for a in sys.argv[1:] if a.startswith("--")]
    UNCHECKED = "--unchecked" in flags
    repo, out = args
    deps = read_crates(os.path.join(repo, "crates.txt"))
    folders = {name: os.path.join(repo, "crates", name, "src") for name in deps}
    if "--bench" in flags:
        more = read_crates(os.path.join(repo, "bench", "programs.txt"))
        folders.update({name: os.path.join(repo, "bench", name, "src") for name in more})
        deps.update(more)
    for own in own_names(folders) & set(METHODS):
        del METHODS[own]
    shim = os.path.join(HERE, "shim")
    shims = sorted(os.listdir(shim))
    wanted = set()
    for name, ds in deps.items():
        src = folders[name]
        if not os.path.isdir(src):
            print("no such crate: " + src, file=sys.stderr)
            continue
        here = os.path.join(out, "crates", name)
        is_main = any(plain(f) == "main.rt" for f in os.listdir(src))
        for folder, dirs, files in os.walk(src):
            rel = os.path.relpath(folder, src)
            if rel.split(os.sep)[0] == "tests":
                continue
            for file in sorted(files):
                if not plain(file).endswith(".rt") or plain(file) == "tests.rt":
                    continue
                sub = os.path.normpath(os.path.join(rel, plain(file)[:-3] + ".rs"))
                target = os.path.join(here, "src", sub)
                wanted.add(target)
                text = open(os.path.join(folder, file), encoding="utf-8").read()
                try:
                    text = inner_modules(translate(text, sub in ("lib.rs", "main.rs")))
                except Exception as e:
                    print("in %s/%s: %s" % (folder, file, e), file=sys.stderr)
                    raise
                write(target, text)
        # `core` is there for its lemmas alone
        need = "".join('%s = { path = "../%s" }\n' % (d, d) for d in ds + ["rstd"] if d != "core")
        kind = '[[bin]]\nname = "%s"\npath = "src/main.rs"\n' % name if is_main else '[lib]\npath = "src/lib.rs"\n'
        cargo = '[package]\nname = "%s"\nversion = "0.0.0"\nedition = "2024"\n\n%s\n[dependencies]\n%s' % (name, kind, need)
        write(os.path.join(here, "Cargo.toml"), cargo)
    for name in shims:
        for folder, dirs, files in os.walk(os.path.join(shim, name)):
            for file in files:
                path = os.path.join(folder, file)
                target = os.path.join(out, "crates", name, os.path.relpath(path, os.path.join(shim, name)))
                wanted.add(target)
                write(target, open(path, encoding="utf-8").read())
    # what an earlier run left and no source stands for any more
    for name in deps:
        for folder, dirs, files in os.walk(os.path.join(out, "crates", name, "src")):
            for file in files:
                path = os.path.join(folder, file)
                if path not in wanted:
                    os.remove(path)
    members = ", ".join('"crates/%s"' % n for n in sorted(list(deps) + shims))
    write(os.path.join(out, "Cargo.toml"), '[workspace]\nresolver = "2"\nmembers = [%s]\n%s' % (members, PROFILE))


if __name__ == "__main__":
    main()
