#!/usr/bin/env python3
"""Counts the places of docs/DESIGN-PASS.md, point by point, in crates/*/src (point 8: in crates/*/proofs).

usage: python3 tools/places.py [POINT] [--list] [--crates]     at the top of the repository

Each rule is a pattern over the code, and no list of places. Comments and the insides of texts are blanked first. Test modules are
read for points 1, 3, 4 and 6, and skipped for 2, 5 and 7, since a test has no contract and says by intent what another one says.
A function named from, try_from, fmt, eq or cmp is the form that points 1, 4 and 7 ask for, and none of their places.

1  flag      a bool field of a struct that has other fields
   shape     an enum of two variants, of which one or both carry values, as Option and Result have them
   number    a function that returns a u8 which is no byte that it cuts off, or an integer whose values are all literals
   answer    a field, parameter or local of the type u8 (or a slice of it) named for an answer: answer, refusal, fault, ..
   code      one of an integer type (or a slice of it) named for a kind (kind, class, role, act, option, ..), a u8 named which, place
             or by one letter (but x, b), a u8 field that is compared with a literal, a local read from such a table or by such a
             function, a u8 constant
   match     a match with integer literals as patterns
   compared  a code or an answer that a function compares with an integer literal: once for each name in a function
   none      0 for nothing: a loop over links until 0, an entry equal to 0, a comment that says `0 for none`, `0 where` or `or 0`
2  type      a function equal to an earlier one after this: locals are numbered, types are T, numbers and constants are N, and the
             suffixes _f64, _f32, _u64, _u32, _short, _any, _few, _words, _cells, _floats, _apart, _small and a last digit are cut
             off the names that it calls
   name      a function whose own name without such a suffix is that of another one of its crate
   step      equal to an earlier one only when called names are F and the signs + - * / are one sign too
             (type and step: at least 12 words and signs in the body, or the same name; exported C functions are left out)
   struct    a struct with as many fields as an earlier one and the same first field, when types are T
   part      a struct with three or more fields of another one, by name and type
3  index     a while loop whose tested variable goes up or down by a literal, which is 1
   stride    by another literal, or by a variable
   links     a while loop whose tested variable is read from a slice at itself, j = next[j]
   other     any other while loop
4  bytes     a line that multiplies, divides or takes a remainder by 256, 65536 or 4294967296
   convert   a function from an integer to an enum of the repository, from one integer to another integer type by `as`, or of one
             parameter whose body is only a cast
   copy      a struct literal with three or more fields, or all, copied from one value under the same name
   load      a struct literal or an array of three or more entries of one slice at fixed places
   store     two or more statements that write the fields or entries of one value to fixed places of slices, or three of plain names
   fill      a function with a loop that only copies a slice or fills one
   order     a function that picks one of two by comparing them, or tells whether two are the same
   say       a function that prints: named say.., report, refused, print.. or show..
   parse     a line that tests or takes apart digits by b'0' or b'9'
5  fact      a clause, split at each × outside brackets, with the parameters' names numbered, that stands in the contracts of three
             or more functions: .old and .now count as one. The places are the facts, and the clauses are counted beside them
   group     three or more parameters (names and types, & and &mut as one) that three or more functions have together: the largest
             such groups. The places are the groups, and the functions that have any such group are counted beside them
6  lent      an array of fixed length in a function that is lent whole as a slice
   cut       the same, lent up to a count: &mut name[..n]
   count     a function with an integer parameter that a `requires` ties to a slice's length by ≤ or ≡, or to a table
   parallel  a function with two or more slices that a clause says to be of one length, or that are indexed by one variable
   constant  constant arrays of one type beside each other in a file
   numbered  a struct or a function with fields or parameters b0, b1, .. of one type, or a, b, c, ..
   arena     a function that follows indices, j = next[j]
   text      a parameter text or name that is a slice of bytes
7  switch    an integer or a flag that a match or a chain of ifs compares with literals, where two or more arms call functions
   loop      a function with a while loop that is equal to an earlier one when each call with its arguments, each struct literal and
             each sum or product is one step, and the signature is left out
8  search    an answer that is only `search rules`, maybe after `let`s
   arith     an answer that is only `omega arith`, `refl`, or the like
   import    a function whose Invariants.antt and Answers.antt have use lines in common
   equal     an answer of 24 or more characters equal to an earlier one of another function, when the function's name is F
"""
import glob
import re
import sys
from collections import defaultdict

INT = r"(?:u8|u16|u32|u64|usize|i8|i16|i32|i64|isize)"
NUM = r"(?:0x[0-9a-fA-F_]+|\d[\d_]*(?:\.\d[\d_]*)?(?:e[-+]?\d+)?)(?:[uif]\d+|usize)?"
SUFFIX = re.compile(r"_(f64|f32|u64|u32|short|any|few|words|cells|floats|apart|small)$|(?<=[a-z])\d$")
FORMS = ("from", "try_from", "fmt", "eq", "cmp", "partial_cmp")
CODE = r"(?:kinds?|class(?:es)?|roles?|acts?|options?|colou?rs?|chains|lasts)"
ANSWER = r"(?:answers?|answered|refusal|fault|difference|expected)"
REF = re.compile(r"^&('\w+ )?(mut )?")
WORD = re.compile(r"[A-Za-z_]\w*|" + NUM + r"|::|->|=>|[-+*/%&|^<>=!]=|&&|\|\||<<|>>|\.\.=?|\S")


class Fn:
    def __init__(self, **kw):
        self.__dict__.update(kw)

    def at(self):
        return (self.file, self.line, "fn " + self.name)


def blank(text):
    """The text with comments and the insides of string literals as blanks of the same length."""
    def out(m):
        s = m.group(0)
        if s[0] == "/":
            return " " * len(s)
        if s[-1] == '"':
            return s[:s.index('"') + 1] + "_" * (len(s) - s.index('"') - 2) + '"'
        return s
    return re.sub(r'//[^\n]*|b?"(?:\\.|[^"\\])*"|b?\'(?:\\.|[^\'\\\n])\'', out, text)


def close(s, i):
    """The place after the bracket that closes the one at i."""
    depth, pairs = 0, {"(": 1, "[": 1, "{": 1, ")": -1, "]": -1, "}": -1}
    for k in range(i, len(s)):
        depth += pairs.get(s[k], 0)
        if depth == 0:
            return k + 1
    return len(s)


def split(s, sep):
    """The parts of s between separators outside of all brackets."""
    parts, depth, start, k = [], 0, 0, 0
    while k < len(s):
        c = s[k]
        depth += (c in "([{") - (c in ")]}")
        if depth == 0 and s.startswith(sep, k):
            parts.append(s[start:k])
            k += len(sep)
            start = k
            continue
        k += 1
    return [p.strip() for p in parts + [s[start:]] if p.strip()]


def without_tests(code):
    for m in reversed(list(re.finditer(r"#\[cfg\(test\)\]\s*mod \w+ \{", code))):
        e = close(code, m.end() - 1)
        code = code[:m.start()] + re.sub(r"[^\n]", " ", code[m.start():e]) + code[e:]
    return code


def fields(body):
    got = []
    for p in split(body, ","):
        m = re.match(r"(?:#\[[^\]]*\]\s*)*(?:pub(?:\([^)]*\))?\s+)?(?:mut\s+)?(\w+)\s*:\s*(.+)$", p, re.S)
        if m:
            got.append((m.group(1), " ".join(m.group(2).split())))
    return got


class Source:
    """Every file, its functions, structs and enums."""

    def __init__(self, tests):
        self.text, self.code, self.fns, self.structs, self.enums = {}, {}, [], [], []
        for f in sorted(glob.glob("crates/*/src/**/*.rt", recursive=True)):
            with open(f, encoding="utf-8") as h:
                self.text[f] = h.read()
            self.code[f] = blank(self.text[f]) if tests else without_tests(blank(self.text[f]))
            self.read(f, self.code[f])

    def read(self, f, code):
        for m in re.finditer(r"\b(struct|enum) (\w+)(?:<[^>{]*>)?(?: where[^{]*)? \{", code):
            body = code[m.end():close(code, m.end() - 1) - 1]
            item = Fn(file=f, line=code.count("\n", 0, m.start()) + 1, name=m.group(2), fields=fields(body), body=body)
            (self.structs if m.group(1) == "struct" else self.enums).append(item)
        found = 0
        for m in re.finditer(r"(extern \"_\" )?\bfn (\w+)\s*(<(?:->|[^<>]|<(?:->|[^<>])*>)*>)?\s*\(", code):
            found += 1
            e = close(code, m.end() - 1)
            fn = Fn(file=f, line=code.count("\n", 0, m.start()) + 1, name=m.group(2), extern=bool(m.group(1)),
                    params=fields(code[m.end():e - 1]), clauses=[], crate=f.split("/")[1])
            r = re.match(r"\s*->\s*((?:\[[^\]]*\]|[^{;])*?)(?=\s*(?:\{|;|\brequires\b|\bensures\b|\bwhere\b))", code[e:])
            fn.result = " ".join(r.group(1).split()) if r else ""
            e += r.end() if r else 0
            while True:
                c = re.match(r"\s*(?:(requires|ensures)(?: \w+)?|(where)[^{]*?)\s*(?=\{|requires|ensures)", code[e:])
                if not c or c.group(2) and code[e + c.end()] == "{":
                    e += c.end() if c else 0
                    break
                e += c.end()
                if c.group(1):
                    end = close(code, e)
                    fn.clauses.append((c.group(1), " ".join(code[e + 1:end - 1].split())))
                    e = end
            b = code.find("{", e)
            if b < 0 or ";" in code[e:b]:
                continue
            fn.start, fn.end = b, close(code, b)
            fn.body = code[b + 1:fn.end - 1].strip()
            fn.words = WORD.findall(fn.body)
            self.fns.append(fn)
        if found != len(re.findall(r"\bfn \w+", code)):
            print(f"{f}: a function is not understood", file=sys.stderr)

    def line(self, f, k):
        return self.code[f].count("\n", 0, k) + 1

    def lines(self, pattern, text=False):
        for f, code in self.code.items():
            for n, line in enumerate((self.text[f] if text else code).split("\n"), 1):
                if re.search(pattern, line):
                    yield f, n, line.strip()


def codes(fn):
    """The names of a function that are codes or answers, with the pattern's class."""
    got = {}
    locals_ = re.findall(r"let (?:mut )?(\w+)\s*:\s*([^=;]+?)\s*=", fn.body)
    for name, ty in fn.params + locals_:
        bare = REF.sub("", ty)
        number = re.fullmatch(INT + r"|\[" + INT + r"(?:; \w+)?\]", bare)
        if re.fullmatch(r"u8|\[u8(; \w+)?\]", bare) and re.fullmatch(ANSWER, name):
            got[name] = "answer"
        elif number and re.fullmatch(CODE, name) or bare == "u8" and re.fullmatch(r"which|place|[ac-wyz]", name):
            got[name] = "code"
    for name, call in re.findall(r"let (?:mut )?(\w+)(?:\s*:\s*u8)? = (?:\w+::)*(\w+(?=\()|\w+(?=\[))", fn.body):
        if re.fullmatch(CODE + r"|kind_at|class|chain|role_at|trails|values_of", call):
            got[name] = "code"
        elif re.fullmatch(r"check|accepted|decode|cutoff", call):
            got[name] = "answer"
    for name in re.findall(r"let (?:mut )?(?:\w+) = [\w.]+\.(" + ANSWER + r");", fn.body):
        got[name] = "answer"
    return got


def values(body):
    """The values that a body of plain returns, ifs and matches may end with."""
    tails = re.findall(r"return ([^;{}]+);|[{}]\s*([^;{}]+?)\s*\}|=> ([^,{}]+),", "{" + body + "}")
    return [a or b or c for a, b, c in tails]


def point1(src):
    tested = {x for code in src.code.values() for x in re.findall(r"\w\.(\w+) (?:==|!=|<=|>=|<|>) " + NUM, code)
              if not re.fullmatch(ANSWER, x)}
    for s in src.structs:
        for name, ty in s.fields:
            number = re.fullmatch(INT + r"|\[" + INT + r"(; \w+)?\]|Vec<" + INT + ">", REF.sub("", ty))
            if ty == "bool" and len(s.fields) > 1:
                yield "flag", s.file, s.line, f"struct {s.name}: {name}"
            elif number and (re.fullmatch(CODE + "|which|place", name) or ty == "u8" and name in tested):
                yield "code", s.file, s.line, f"struct {s.name}: {name}: {ty}"
            elif number and "u8" in ty and re.fullmatch(ANSWER, name):
                yield "answer", s.file, s.line, f"struct {s.name}: {name}: {ty}"
    for e in src.enums:
        variants = split(e.body, ",")
        if len(variants) == 2 and any(re.search(r"[({]", re.sub(r"#\[[^\]]*\]", "", v)) for v in variants):
            yield "shape", e.file, e.line, f"enum {e.name}"
    for fn in src.fns:
        if fn.name in FORMS:
            continue
        v = values(fn.body)
        literal = v and all(re.fullmatch(NUM, x) for x in v) and len(set(v)) > 1
        if fn.result == "u8" and not re.fullmatch(r"[^;{}]* as u8", fn.body) or re.fullmatch(INT, fn.result) and literal:
            yield ("number",) + fn.at()
        got = codes(fn)
        for name, kind in got.items():
            yield kind, fn.file, fn.line, f"fn {fn.name}: {name}"
        tested = list(got) + re.findall(r"\w+\.(" + ANSWER + r")\b", fn.body) + re.findall(r"\bmatch (\w+) \{", fn.body)
        for name in dict.fromkeys(tested):
            v = r"(?<![\w.])(?:\w+\.)?" + name + r"(?:\[\w+\])?"
            if re.search(v + r" (?:==|!=|<=|>=|<|>) " + NUM + r"|\b" + NUM + r" (?:==|!=|<=|>=|<|>) " + v + r"\b", fn.body):
                yield "compared", fn.file, fn.line, f"fn {fn.name}: {name}"
        for m in re.finditer(r"\bmatch [^{;]+ \{", fn.body):
            if re.match(r"\s*" + NUM + r"\s*(?:\.\.|\||=>)", fn.body[m.end():]):
                yield "match", fn.file, src.line(fn.file, fn.start) + fn.body.count("\n", 0, m.start()) + 1, m.group(0)
    for f, n, line in src.lines(r"^\s*(?:pub )?const \w+: u8\b"):
        yield "code", f, n, line
    for f, n, line in src.lines(r"\w\[\w+\] == 0\b"):
        yield "none", f, n, line
    for kind, f, n, line, _ in loops(src):
        if kind == "links":
            yield "none", f, n, line
    for f, n, line in src.lines(r"//.*(?:\b0 for none|\b0 where|[, ]or 0\b)", True):
        yield "none", f, n, line


def normal(fn, step):
    """The body with locals numbered, types, numbers and, where step says so, called names and signs made one."""
    names, out, w = {}, [], fn.words
    known = {p for p, _ in fn.params} | set(re.findall(r"let (?:mut )?(\w+)", fn.body)) | {"self"}
    for i, x in enumerate(w):
        after, before = (w[i + 1] if i + 1 < len(w) else ""), (w[i - 1] if i else "")
        if re.fullmatch(NUM, x) or re.fullmatch(r"[A-Z][A-Z0-9_]*", x):
            out.append("N")
        elif re.fullmatch(INT + "|f32|f64|bool", x):
            out.append("T")
        elif x in known and before not in (".", "::") and after not in ("::", "(") and not (after == ":" and before != "let"):
            out.append(names.setdefault(x, f"v{len(names)}"))
        elif re.fullmatch(r"[A-Za-z_]\w*", x) and (after in ("(", "::") or before == "::"):
            if not step or before == ".":
                out.append(SUFFIX.sub("", x))
            elif not (before == "::" or out and out[-1] == "F"):
                out.append("F")
        elif step and x == "::" or x in ("->",):
            continue
        else:
            out.append("±" if step and x in "+-*/" else x)
    types = [re.sub(INT + "|f32|f64", "T", re.sub(r"; \w+\]", "; N]", t)) for _, t in fn.params]
    return " ".join(out) + " ## " + ", ".join(types) + " -> " + re.sub(INT + "|f32|f64", "T", fn.result)


def twins(src):
    """For each function the class and the earlier function that it repeats."""
    got, seen = {}, [{}, {}, {}]
    stems = defaultdict(list)
    plain = [fn for fn in src.fns if not fn.extern and fn.name != "main"]
    for fn in plain:
        stems[fn.crate, SUFFIX.sub("", fn.name)].append(fn)
    for k, kind in enumerate(("type", "step")):
        for fn in plain:
            if re.fullmatch(r"(?:\w+::)*\w+\([^()]*\)", fn.body):
                continue
            form = normal(fn, k == 1)
            first = seen[k].setdefault(form, fn) if len(fn.words) >= 12 else seen[2].setdefault((fn.name, form), fn)
            if first is not fn and id(fn) not in got:
                got[id(fn)] = (kind, fn, first)
        if k == 0:
            for group in stems.values():
                for fn in group[1:]:
                    if fn.name != group[0].name:
                        got.setdefault(id(fn), ("name", fn, group[0]))
    return sorted(got.values(), key=lambda g: (g[1].file, g[1].line))


def point2(src):
    for kind, fn, first in twins(src):
        yield kind, fn.file, fn.line, f"fn {fn.name} as {first.crate}::{first.name}"
    seen = {}
    for s in src.structs:
        if len(s.fields) > 1:
            first = seen.setdefault((s.fields[0], len(s.fields)), s)
            if first is not s:
                yield "struct", s.file, s.line, f"struct {s.name} as {first.name} of {first.file.split('/')[1]}"
        for t in src.structs:
            if t is not s and len(s.fields) < len(t.fields) and len(set(s.fields) & set(t.fields)) >= 3:
                yield "part", s.file, s.line, f"struct {s.name} in {t.name} of {t.file.split('/')[1]}"
                break


def loops(src):
    for f, code in src.code.items():
        for m in re.finditer(r"\bwhile ([^{]+) \{", code):
            body = code[m.end():close(code, m.end() - 1) - 1]
            kind = "other"
            for v in re.findall(r"[a-z_]\w*", m.group(1)):
                by = re.findall(r"\b" + v + r" [-+]= (\w+);|\b" + v + r" = " + v + r" [-+] (\w+);", body)
                by += [(x, "") for n in re.findall(r"\b" + v + r" = (\w+);", body) for x in re.findall(r"let " + n + r" = " + v + r" \+ (\w+);", body)]
                if re.search(r"\b" + v + r" = [\w.]+\[" + v + r"\];", body):
                    kind = "links"
                elif by:
                    kind = "index" if all("".join(x) == "1" for x in by) else "stride"
                if kind != "other":
                    break
            yield kind, f, src.line(f, m.start()), m.group(0), v


def point3(src):
    for kind, f, n, text, _ in loops(src):
        yield kind, f, n, text


def literals(fn):
    """The struct literals of a function, with their fields and their place."""
    for m in re.finditer(r"\b(?:\w+::)*[A-Z]\w* \{", fn.body):
        body = fn.body[m.end():close(fn.body, m.end() - 1) - 1]
        yield m.group(0)[:-2], [p.partition(":")[::2] for p in split(body, ",")], fn.body.count("\n", 0, m.start())


def point4(src):
    enums = {e.name for e in src.enums}
    big = r"(?:256|65536|16777216|4294967296)\b"
    for f, n, line in src.lines(r"[%/] " + big + r"(?!\.)|(?<![\w.])" + big + r" \*"):
        if not re.search(r"\b(requires|ensures)\b", line):
            yield "bytes", f, n, line
    for f, n, line in src.lines(r"b'[09]'"):
        yield "parse", f, n, line
    for fn in src.fns:
        if fn.name in FORMS:
            continue
        if re.search(r"while (\w+) < [\w.()]+ \{\s*\w+\[\1\] = (?:\w+\[\1\]|\w+(?:\.\d)?);\s*\1 \+= 1;\s*\}", fn.body):
            yield ("fill",) + fn.at()
        ints = [p for p, t in fn.params if re.fullmatch(INT, t)]
        one = len(fn.params) == 1 and (re.fullmatch(r"\(?[^;{}=]*\)? as \w+", fn.body) or ints and re.fullmatch(INT, fn.result)
                                       and fn.result != fn.params[0][1] and " as " in fn.body)
        if ints and fn.result.split("::")[-1] in enums or one:
            yield ("convert",) + fn.at()
        at = src.line(fn.file, fn.start) + 1
        for name, got, k in literals(fn):
            copied, loaded = defaultdict(int), defaultdict(int)
            for field, value in got:
                c = re.fullmatch(r"\s*([\w.]+)\.(\w+)\s*", value)
                if c and c.group(2) == field.strip():
                    copied[c.group(1)] += 1
                l = re.fullmatch(r"\s*(?:\w+\()?(\w+)(?:\[[^\]]*\]|\.(\w+))\)?\s*", value)
                if l and not l.group(2):
                    loaded[l.group(1)] += 1
            most = max(list(copied.values()) + [0])
            if most >= 3 or most == len(got) > 1:
                yield "copy", fn.file, at + k, f"fn {fn.name}: {name}"
            most = max(list(loaded.values()) + [0])
            if most >= 3 or most == len(got) > 1:
                yield "load", fn.file, at + k, f"fn {fn.name}: {name}"
        for m in re.finditer(r"\[\s*(?:\w+\()?(\w+)\[\w+\]\)?(?:,\s*(?:\w+\()?\1\[\w+\]\)?){2,},?\s*\]", fn.body):
            yield "load", fn.file, at + fn.body.count("\n", 0, m.start()), f"fn {fn.name}: an array of {m.group(1)}"
        stored = defaultdict(list)
        for place, value, part in re.findall(r"\w+\[(\w+(?: \+ \w+)?)\] = ([a-z]\w*)(\.\w+|\[\w+\])?;", fn.body):
            stored[value if part else ""].append(place)
        for value, where in stored.items():
            if len(where) >= (2 if value else 3) and re.search(r"\b\d", " ".join(where)):
                yield "store", fn.file, fn.line, f"fn {fn.name}: {len(where)} of {value or 'plain names'}"
        pick = re.fullmatch(r"if (\S+) [<>]=? ([^{]+?) \{\s*([^;{}]+?)\s*\} else \{\s*([^;{}]+?)\s*\}", fn.body)
        bare = [re.sub(r" as \w+", "", x) for x in pick.groups()] if pick else []
        if pick and set(bare[2:]) <= set(bare[:2]) or fn.result == "bool" and re.fullmatch(r"(\w+\()?(\w+)\)? == \1?(\w+)\)?", fn.body):
            yield ("order",) + fn.at()
        if re.fullmatch(r"(?:say|print|show)(?:_\w+)?|report|refused", fn.name):
            yield ("say",) + fn.at()


def facts(src):
    got = defaultdict(list)
    for fn in src.fns:
        names = {p for p, _ in fn.params}
        for kind, clause in fn.clauses:
            todo = [clause]
            while todo:
                fact, num = todo.pop(0), {}
                inner = fact[1:-1].strip() if fact.startswith("(") and close(fact, 0) == len(fact) else fact
                parts = split(inner, " × ")
                if parts != [fact]:
                    todo += parts
                    continue
                form = re.sub(r"(?<![\w.])[A-Za-z_]\w*", lambda m: num.setdefault(m.group(0), f"p{len(num) + 1}")
                              if m.group(0) in names else m.group(0), fact)
                got[kind, re.sub(r"\.(old|now)\b", ".at", form)].append(fn)
    return {k: v for k, v in got.items() if len({id(f) for f in v}) >= 3}


def groups(src):
    rows = [(frozenset((p, re.sub(r"^&mut ", "&", t)) for p, t in fn.params), fn) for fn in src.fns]
    rows = [r for r in rows if len(r[0]) >= 3]
    closed = set()
    for s in {r[0] for r in rows}:
        closed |= {x for x in {s & c for c in closed} | {s} if len(x) >= 3}
    often = {c: [fn for s, fn in rows if c <= s] for c in closed}
    often = {c: fns for c, fns in often.items() if len(fns) >= 3}
    largest = [c for c in often if not any(c < d for d in often)]
    return {c: often[c] for c in largest}, {id(fn): fn for fns in often.values() for fn in fns}


def point5(src):
    for (kind, form), fns in sorted(facts(src).items(), key=lambda x: -len(x[1])):
        yield "fact", fns[0].file, fns[0].line, f"{kind} {form}  [{len(fns)} clauses of {len({id(f) for f in fns})} functions]"
    for group, fns in sorted(groups(src)[0].items(), key=lambda x: sorted(x[0])):
        text = ", ".join(f"{p}: {t}" for p, t in sorted(group))
        yield "group", fns[0].file, fns[0].line, f"{len(group)} parameters of {len(fns)} functions: {text}"


def point6(src):
    for fn in src.fns:
        slices = {p for p, t in fn.params if REF.sub("", t).startswith("[") and t.startswith("&")}
        for m in re.finditer(r"let mut (\w+) = \[[^;\]]+; \w[^\]]*\];", fn.body):
            lent = re.search(r"&(?:mut )?" + m.group(1) + r"\b(\[)?", fn.body)
            if lent:
                yield "cut" if lent.group(1) else "lent", fn.file, src.line(fn.file, fn.start) + 1 + fn.body.count("\n", 0, m.start()), f"fn {fn.name}: {m.group(0)}"
        parts = [f.strip("( )") for k, c in fn.clauses if k == "requires" for f in split(c, " × ")]
        parts = [q for f in parts for q in split(f, " × ")]
        ties = re.compile(r"\blength \w+\.\w+[^≡≤<]*[≡≤]|[≡≤][^≡≤<]*\blength \w+\.|\bTable\b")
        for p, t in fn.params:
            if re.fullmatch(INT, t) and any(re.search(r"(?<![\w.])" + p + r"\b", f) and ties.search(f) and "2 ^" not in f for f in parts):
                yield "count", fn.file, fn.line, f"fn {fn.name}: {p}"
                break
        tied = any(len({s for s in re.findall(r"length (\w+)\.", f) if s in slices}) > 1 for f in parts)
        tables = sum("Table" in f.split() for f in parts) > 1
        index = defaultdict(set)
        for s, k in re.findall(r"(?<![\w.])(\w+)\[([a-z]\w*)\]", fn.body):
            if s in slices:
                index[k].add(s)
        if tied or tables or any(len(v) > 1 for v in index.values()):
            yield ("parallel",) + fn.at()
        if numbered(fn.params):
            yield ("numbered",) + fn.at()
        for p, t in fn.params:
            if p in ("text", "name") and re.fullmatch(r"&\[u8\]", t):
                yield "text", fn.file, fn.line, f"fn {fn.name}: {p}"
        if re.search(r"\b(\w+) = [\w.]+\[\1\];", fn.body):
            yield ("arena",) + fn.at()
    for s in src.structs:
        if numbered(s.fields):
            yield "numbered", s.file, s.line, f"struct {s.name}"
    for f, code in src.code.items():
        types = defaultdict(list)
        for m in re.finditer(r"const (\w+): (\[[^\]]+\])", code):
            types[m.group(2)].append((src.line(f, m.start()), m.group(1)))
        for ty, got in types.items():
            for n, name in got if len(got) > 1 else []:
                yield "constant", f, n, f"const {name}: {ty}"


def numbered(items):
    stems = defaultdict(set)
    for name, ty in items:
        m = re.fullmatch(r"([a-z]+?)(\d)", name)
        if m:
            stems[m.group(1), ty].add(m.group(2))
    names = [n for n, t in items if t == items[0][1]]
    return any(len(v) > 1 for v in stems.values()) or "".join(names).startswith("abc") and all(len(n) == 1 for n in names)


def steps(fn):
    """The body with each call, struct literal, sum and product as one step, and locals numbered."""
    body, old = " ".join(fn.body.split()), None
    while body != old:
        old = body
        body = re.sub(r"(?<![\w.])(?!if\b|while\b|match\b)(?:\w+::)*\w+ ?\([^()]*\)|(?:\w+::)*[A-Z]\w* \{[^{}]*\}", "STEP", body)
        body = re.sub(r"(?<=[-+*/(] )\([^()]*\)|\(\w+ as \w+\)", "STEP", body)
        body = re.sub(r"(?<= = )[\w.\[\]]+(?: [-+*/] [\w.\[\]]+)+(?=;)", "STEP", body)
    body = re.sub(r"(?<=\w)\.(?!len\b)\w+", ".f", re.sub(NUM + r"(?!\w)", "N", body))
    names = {}
    keep = r"(?!(?:let|mut|while|if|else|return|len|STEP|N|f|as|true|false)\b)"
    body = re.sub(r"(?<![\w.])" + keep + r"[a-z_]\w*", lambda m: names.setdefault(m.group(0), f"v{len(names)}"), body)
    return body.replace("continue;", "")


def point7(src):
    call = re.compile(r"(?<![\w.:])(?:\w+::)*[a-z]\w*\(")
    for fn in src.fns:
        if fn.name in FORMS:
            continue
        for m in re.finditer(r"\bmatch [^{;]+ \{", fn.body):
            body = fn.body[m.end():close(fn.body, m.end() - 1) - 1]
            arms = re.split(r"(?<==>)|(?m:^\s*(?=" + NUM + r"[^\n]*=>|_ =>))", body)
            if re.match(r"\s*" + NUM + r"\s*(?:\.\.|\||=>)", body) and sum(bool(call.search(a)) for a in arms) > 1:
                yield "switch", fn.file, src.line(fn.file, fn.start) + 1 + fn.body.count("\n", 0, m.start()), f"fn {fn.name}: {m.group(0)}"
        arms = defaultdict(int)
        got = codes(fn)
        for m in re.finditer(r"\bif (?:" + NUM + r" <=? )?(\w+)(?: (==|!=|<|<=|>|>=) (?:" + NUM + r"|[A-Z]\w*))? \{", fn.body):
            if m.group(1) not in got and (m.group(2) or "==") not in ("==", "!="):
                continue
            e = close(fn.body, m.end() - 1)
            arms[m.group(1)] += bool(call.search(fn.body[m.end():e]))
            other = re.match(r"\s*else \{", fn.body[e:])
            rest = fn.body[e + other.end():close(fn.body, e + other.end() - 1)] if other else fn.body[e:] if "return" in fn.body[m.end():e] else ""
            last = not re.search(r"\bif\b", rest)
            arms[m.group(1)] += last and bool(call.search(rest))
        whole = {p for p, t in fn.params if re.fullmatch(INT + "|bool", t)} | set(got)
        for name, n in arms.items():
            if n > 1 and name in whole:
                yield "switch", fn.file, fn.line, f"fn {fn.name}: if {name}"
    seen = {}
    for fn in src.fns:
        if "while" in fn.words:
            first = seen.setdefault(steps(fn), fn)
            if first is not fn:
                yield "loop", fn.file, fn.line, f"fn {fn.name} as {first.crate}::{first.name}"


def point8(_):
    seen = {}
    for f in sorted(glob.glob("crates/*/proofs/**/Answers.antt", recursive=True)):
        with open(f, encoding="utf-8") as h:
            lines = h.read().split("\n")
        name = f.split("/")[-2]
        try:
            with open(f.replace("Answers", "Invariants"), encoding="utf-8") as h:
                both = {x for x in h.read().split("\n") if x.startswith("use ")}
        except FileNotFoundError:
            both = set()
        common = [n for n, line in enumerate(lines, 1) if line in both]
        if common:
            yield "import", f, common[0], f"{len(common)} lines"
        for n, line in enumerate(lines, 1):
            m = re.match(r"pub (\S+) : goal\.\S+$", line)
            if not m:
                continue
            end = next((k for k in range(n, len(lines)) if not lines[k].strip()), len(lines))
            whole = " ".join(" ".join(lines[n:end]).split())
            body = whole.partition(" = ")[2] if whole.startswith(m.group(1)) else whole.partition(m.group(1) + " ")[2].partition(" = ")[2]
            if re.fullmatch(r"(?:let .* in )?search \w+", body):
                yield "search", f, n, f"{m.group(1)} = {body}"
            elif re.fullmatch(r"\(?(?:omega|grind|simp) \w+\)?|\(?refl\)?", body):
                yield "arith", f, n, f"{m.group(1)} = {body}"
            elif len(body) >= 24:
                first = seen.setdefault(re.sub(r"(?<![\w'-])" + re.escape(name) + r"(?![\w'-])", "F", body), f)
                if first != f:
                    yield "equal", f, n, f"{m.group(1)} as in {first}"


POINTS = {1: point1, 2: point2, 3: point3, 4: point4, 5: point5, 6: point6, 7: point7, 8: point8}


def main(args):
    wanted = [int(a) for a in args if a.isdigit()] or list(POINTS)
    for point in wanted:
        src = Source(tests=point in (1, 3, 4, 6))
        places = sorted(set(POINTS[point](src)))
        classes, crates = defaultdict(int), defaultdict(int)
        for kind, f, n, text in places:
            classes[kind] += 1
            crates[f.split("/")[1]] += 1
            if "--list" in args:
                print(f"{kind:9} {f[len('crates/'):]}:{n}: {text}")
        print(f"point {point}: {len(places)} places (" + ", ".join(f"{k} {v}" for k, v in sorted(classes.items())) + ")")
        if point == 5:
            print(f"    the facts stand in {sum(map(len, facts(src).values()))} clauses; {len(groups(src)[1])} functions have a group of three parameters or more")
        if "--crates" in args:
            print("    " + ", ".join(f"{c} {v}" for c, v in sorted(crates.items(), key=lambda x: (-x[1], x[0]))))


if __name__ == "__main__":
    main(sys.argv[1:])
