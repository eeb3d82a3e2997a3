"""Every small wrong edit of the core's code, for tools/mutants to try.

The code is read token by token, without a compiler: names are looked up in the declarations of all files, and a type is told
where a declaration tells it. Where none does, an edit may be proposed that does not compile; tools/mutants does not count it.
Contracts, comments, `use` and `ghost` lines, declarations and types are left alone.
"""
import re
from collections import defaultdict, namedtuple

# A word of the code, and where it stands in its file.
Token = namedtuple("Token", "kind text start end")
# The bytes from start to end become `new`. The owner is the function or constant that they stand in.
Edit = namedtuple("Edit", "source start end new kind owner")
Function = namedtuple("Function", "name params answer first last home source")
Constant = namedtuple("Constant", "name type first last home source")
# A variable, its type, and the words between which it can be named.
Variable = namedtuple("Variable", "name type first last")

TOKENS = re.compile(
    r"(?P<space>\s+|//[^\n]*)|(?P<string>b?\"(?:\\.|[^\"\\])*\")|(?P<char>b?'(?:\\.|[^'\\])')|(?P<life>'\w+)"
    r"|(?P<number>(?:0x[0-9a-fA-F_]+|\d[\d_]*)(?:[ui](?:8|16|32|64|size))?)|(?P<name>[^\W\d]\w*)"
    r"|(?P<sign>\.\.=|<<=|>>=|::|->|=>|<=|>=|==|!=|\+=|-=|\*=|/=|%=|&=|\|=|&&|\|\||<<|>>|\.\.|.)", re.S)
CLAUSES = {"requires", "ensures"}
KEYWORDS = {"let", "mut", "if", "else", "while", "for", "in", "loop", "match", "return", "as", "fn", "const", "ref", "break", "continue", "move"}
COMPARED = {"<": ("<=", ">", ">="), "<=": ("<", ">=", ">"), ">": (">=", "<", "<="), ">=": (">", "<=", "<"),
            "==": ("!=", "<=", ">="), "!=": ("==", "<", ">")}
COUNTED = {"+": ("-",), "-": ("+",), "*": ("/", "+"), "/": ("%", "*"), "%": ("/",), "<<": (">>",), ">>": ("<<",),
           "+=": ("-=",), "-=": ("+=",), "&": ("|",), "|": ("&",)}
OPENING, CLOSING = {"(": ")", "[": "]", "{": "}"}, {")", "]", "}"}


def shape_of(function):
    """What has to be alike for one function to be called in place of another."""
    return [kind for _, kind in function.params], function.answer, function.home


class Source:
    """A file: its tokens, the partner of each bracket, and where each name that it imports comes from."""

    def __init__(self, path, name, text):
        self.path, self.text, self.name = path, text, name
        found = (Token(m.lastgroup, m.group(), m.start(), m.end()) for m in TOKENS.finditer(text))
        self.tokens = [token for token in found if token.kind != "space"]
        # Whoever looks ahead of the last word finds words that are nothing.
        self.tokens += [Token("end", "", len(text), len(text))] * 4
        self.partner, open_ones = {}, []
        for k, token in enumerate(self.tokens):
            if token.text in OPENING and token.kind == "sign":
                open_ones.append(k)
            elif token.text in CLOSING and token.kind == "sign" and open_ones:
                self.partner[open_ones.pop()] = k
        self.imports, self.functions, self.constants = {}, [], []

    def text_of(self, first, last):
        """What is written from one token to before another."""
        return self.text[self.tokens[first].start:self.tokens[last - 1].end] if first < last else ""

    def parts(self, first, last, sign=","):
        """The stretches between first and last that are parted by a sign outside of brackets."""
        start = k = first
        while k < last:
            if self.tokens[k].text == sign:
                yield start, k
                start = k + 1
            k = self.partner.get(k, k) + 1
        if start < last:
            yield start, last

    def find(self, k, last, *signs):
        """The first of some signs outside of brackets; brackets that are looked for are found where they open."""
        while k < last and self.tokens[k].text not in signs:
            k = self.partner.get(k, k) + 1
        return min(k, last)

    def type_in(self, first, last):
        """A type as it is compared: with no lifetime, no `mut` and no arguments in angles."""
        words = [t.text for t in self.tokens[first:last] if t.kind != "life" and t.text != "mut"]
        return re.sub(r"<.*>", "", "".join(words))


class Code:
    """The declarations of all files."""

    def __init__(self, sources):
        self.sources, self.structs, self.enums, self.tuples = sources, {}, {}, {}
        self.functions, self.constants, self.field_homes = defaultdict(list), defaultdict(list), defaultdict(list)
        for source in sources:
            self.read(source)
        for name, fields in self.structs.items():
            for field, _ in fields:
                self.field_homes[field].append(name)

    def read(self, source):
        tokens, k, home, home_ends = source.tokens, 0, None, 0
        while tokens[k].kind != "end":
            word = tokens[k].text
            home = home if k < home_ends else None
            if word in ("use", "mod", "ghost"):
                last = source.find(k, len(tokens), ";")
                self.imported(source, k, last)
                k = last
            elif word in ("struct", "enum"):
                k = self.declared(source, k, word == "enum")
            elif word == "impl":
                brace = source.find(k, len(tokens), "{")
                home, home_ends, k = source.type_in(k + 1, brace), source.partner[brace], brace
            elif word == "const":
                k = self.constant(source, k, home)
            elif word == "fn":
                k = self.function(source, k, home)
            k += 1

    def imported(self, source, first, last):
        brace = source.find(first, last, "{")
        names = [t.text for t in source.tokens[first:brace] if t.kind == "name"]
        if names[0] == "use" and brace < last:
            source.imports.update({t.text: names[-1] for t in source.tokens[brace:last] if t.kind == "name"})
        elif names[0] == "use" and len(names) > 2:
            source.imports[names[-1]] = names[-2]

    def declared(self, source, k, is_enum):
        name = source.tokens[k + 1].text
        brace = source.find(k, len(source.tokens), "{", "(", ";")
        last = source.partner.get(brace, brace)
        entries = []
        for first, stop in source.parts(brace + 1, last):
            words = [j for j in range(first, stop) if source.tokens[j].text != "pub"]
            if is_enum:
                payload = source.tokens[words[0] + 1].text == "("
                types = [source.type_in(a, b) for a, b in source.parts(words[0] + 2, stop - 1)] if payload else []
                entries.append((source.tokens[words[0]].text, tuple(types)))
            elif source.tokens[brace].text == "(":
                self.tuples[name] = source.type_in(words[0], stop)
            else:
                entries.append((source.tokens[words[0]].text, source.type_in(words[0] + 2, stop)))
        (self.enums if is_enum else self.structs).setdefault(name, entries)
        return last

    def constant(self, source, k, home):
        equals = source.find(k, len(source.tokens), "=")
        last = source.find(equals, len(source.tokens), ";")
        found = Constant(source.tokens[k + 1].text, source.type_in(k + 3, equals), equals + 1, last, home, source)
        source.constants.append(found)
        self.constants[found.name].append(found)
        return last

    def function(self, source, k, home):
        opening = source.find(k, len(source.tokens), "(")
        closing = source.partner[opening]
        params = []
        for first, last in source.parts(opening + 1, closing):
            words = [t.text for t in source.tokens[first:last] if t.text != "mut"]
            colon = source.find(first, last, ":")
            params.append((words[0], source.type_in(colon + 1, last)) if colon < last else ("self", home))
        brace, answer = closing + 1, ""
        while source.tokens[brace].text != "{":
            if source.tokens[brace].text == "->":
                stop = source.find(brace, len(source.tokens), "{", *CLAUSES)
                answer, brace = source.type_in(brace + 1, stop), stop
            elif source.tokens[brace].text in CLAUSES:
                # (a clause may have a name before its brace)
                brace = source.partner[source.find(brace, len(source.tokens), "{")] + 1
            else:
                brace += 1
        found = Function(source.tokens[k + 1].text, params, answer, brace + 1, source.partner[brace], home, source)
        source.functions.append(found)
        self.functions[found.name].append(found)
        return source.partner[brace]

    def edits(self):
        """Every edit; of two that leave the same text, one."""
        seen, found = set(), []
        for source in self.sources:
            for owner in sorted(source.functions + source.constants, key=lambda item: item.first):
                for edit in Body(self, source, owner).edits():
                    text = source.text[:edit.start] + edit.new + source.text[edit.end:]
                    if text != source.text and (source.path, text) not in seen:
                        seen.add((source.path, text))
                        found.append(edit)
        return found


class Body:
    """The words of one function's body, or of one constant's value."""

    def __init__(self, code, source, owner):
        self.code, self.source, self.owner = code, source, owner
        self.tokens, self.first, self.last = source.tokens, owner.first, owner.last
        # Words that are no expression: patterns, types, and what a `let` or `for` names.
        self.silent, self.patterns, self.shorthands = set(), set(), set()
        self.variables = [Variable(name, kind, self.first, self.last) for name, kind in getattr(owner, "params", [])]
        self.arms = []
        for k in range(self.first, self.last):
            if self.tokens[k].text == "match":
                self.note_arms(k)
        self.note_variables()

    # What is declared in the body.

    def note_arms(self, k):
        source, arms = self.source, []
        brace = source.find(k, self.last, "{")
        start, last = brace + 1, source.partner[brace]
        while start < last:
            arrow = source.find(start, last, "=>")
            is_block = self.tokens[arrow + 1].text == "{"
            stop = source.partner[arrow + 1] + 1 if is_block else source.find(arrow, last, ",")
            arms.append((arrow + 1, stop))
            self.patterns.update(range(start, arrow + 1))
            self.note_bound(start, arrow, stop)
            start = stop + 1 if self.tokens[stop].text == "," else stop
        self.arms.append(arms)

    def note_bound(self, start, arrow, stop):
        """The variables of a pattern Enum::Variant(a, b)."""
        if self.tokens[start + 1].text == "::" and self.tokens[start + 3].text == "(":
            types = dict(self.code.enums.get(self.tokens[start].text, [])).get(self.tokens[start + 2].text, ())
            for (a, b), kind in zip(self.source.parts(start + 4, arrow - 1), types):
                if b == a + 1:
                    self.variables.append(Variable(self.tokens[a].text, kind, arrow, stop))

    def note_variables(self):
        blocks = [self.last]
        for k in range(self.first, self.last):
            word = self.tokens[k].text
            while blocks[-1] < k:
                blocks.pop()
            if word == "{":
                blocks.append(self.source.partner[k])
            elif word == "let":
                self.note_let(k, blocks[-1])
            elif word == "for":
                brace = self.source.find(k, self.last, "{")
                self.silent.add(k + 1)
                self.variables.append(Variable(self.tokens[k + 1].text, "usize", brace, self.source.partner[brace]))
            elif word == "as":
                self.silent.add(k + 1)

    def note_let(self, k, block_ends):
        equals, stop = self.source.find(k, self.last, "="), self.source.find(k, self.last, ";")
        at = k + 2 if self.tokens[k + 1].text == "mut" else k + 1
        self.silent.update(range(k, equals + 1))
        kind = self.source.type_in(at + 2, equals) if self.tokens[at + 1].text == ":" else self.type_of(equals + 1, stop)
        self.variables.append(Variable(self.tokens[at].text, kind, stop, block_ends))

    # What a name is.

    def variable(self, name, k):
        known = [v for v in self.variables if v.name == name and v.first <= k < v.last]
        return max(known, key=lambda v: v.first) if known else None

    def function(self, names):
        found = self.code.functions.get(names[-1], [])
        own = [f for f in found if f.source is self.source and not f.home]
        if len(names) == 1 and own:
            return own[0]
        home = names[-2] if len(names) > 1 else self.source.imports.get(names[0])
        near = [f for f in found if f.home == home] if home and home[0].isupper() else [f for f in found if f.source.name == home]
        return near[0] if near else found[0] if len(found) == 1 else None

    def constant(self, names):
        found = self.code.constants.get(names[-1], [])
        home = names[-2] if len(names) > 1 else self.source.imports.get(names[0])
        near = [c for c in found if (c.home == home if home and home[0].isupper() else c.source is self.source or c.source.name == home)]
        return near[0] if near else None

    def payload(self, names):
        """The types that a variant, a tuple or a function takes, and what it makes of them."""
        if len(names) > 1 and names[-2] in self.code.enums:
            return dict(self.code.enums[names[-2]]).get(names[-1], ()), names[-2]
        if names[-1] in self.code.tuples:
            return (self.code.tuples[names[-1]],), names[-1]
        called = self.function(names)
        return ([kind for _, kind in called.params], called.answer) if called else ((), None)

    def type_of(self, first, last):
        texts = [self.tokens[k].text for k in range(first, last)]
        if not texts:
            return None
        if texts[0] == "!" or (any(sign in COMPARED for sign in texts) and texts[0] not in ("if", "match")):
            return "bool"
        if len(texts) > 1 and texts[-2] == "as":
            return texts[-1]
        if texts[0] == "[":
            halves = list(self.source.parts(first + 1, last - 1, ";"))
            literal = re.search(r"[ui](8|16|32|64|size)$", texts[1])
            kind = literal.group() if literal and self.tokens[first + 1].kind == "number" else self.type_of(*halves[0])
            return f"[{kind};{self.source.text_of(*halves[-1])}]" if kind and len(halves) == 2 else None
        kind, stop, _ = self.path(first)
        return kind if stop == last else None

    def path(self, k):
        """The type of the operand that begins here, the word after it, and the places of its fields with what has them."""
        tokens, partner, fields = self.tokens, self.source.partner, []
        if tokens[k].text in ("true", "false"):
            return "bool", k + 1, fields
        names, start = [tokens[k].text], k
        k += 1
        while tokens[k].text == "::":
            names.append(tokens[k + 1].text)
            k += 2
        kind = None
        if tokens[k].text == "(":
            kind, k = self.payload(names)[1], partner[k] + 1
        elif tokens[k].text == "{" and names[-1] in self.code.structs:
            kind, k = names[-1], partner[k] + 1
        elif len(names) == 1 and self.variable(names[0], start):
            kind = self.variable(names[0], start).type
        elif self.constant(names):
            kind = self.constant(names).type
        elif len(names) > 1 and names[-2] in self.code.enums:
            kind = names[-2]
        while tokens[k].text in (".", "["):
            kind, k = self.postfix(kind, k, fields)
        return kind, k, fields

    def postfix(self, kind, k, fields):
        tokens = self.tokens
        if tokens[k].text == "[":
            element = re.fullmatch(r"&?\[(\w+)(;.*)?\]", kind or "")
            return (element.group(1) if element else None), self.source.partner[k] + 1
        if tokens[k + 2].text == "(":
            fields.append((k + 1, kind))
            called = [f for f in self.code.functions.get(tokens[k + 1].text, []) if f.home and f.home == kind]
            return (called[0].answer if called else "usize" if tokens[k + 1].text == "len" else None), self.source.partner[k + 2] + 1
        fields.append((k + 1, kind))
        if tokens[k + 1].text == "0":
            return self.code.tuples.get(kind), k + 2
        return dict(self.code.structs.get(kind, [])).get(tokens[k + 1].text), k + 2

    # The edits.

    def edit(self, first, last, new, kind):
        """The words from first to before last become new."""
        return Edit(self.source, self.tokens[first].start, self.tokens[last - 1].end, new, kind, self.owner)

    def edits(self):
        for k in range(self.first, self.last):
            token = self.tokens[k]
            if token.kind == "number" and self.tokens[k - 1].text != "." and k not in self.silent:
                yield from self.other_numbers(k)
            elif token.kind == "string":
                yield from self.other_bytes(k)
            elif k in self.patterns or k in self.silent:
                continue
            elif token.text == "{" and self.tokens[k - 1].text in self.code.structs:
                yield from self.other_literals(k)
            elif token.text == "[" and self.tokens[k - 1].kind not in ("name",) and self.tokens[k - 1].text not in (")", "]"):
                yield from self.exchanged(k, None)
            elif token.text == "if":
                yield from self.other_branches(k)
            elif token.kind == "sign":
                yield from self.other_signs(k)
            elif token.kind == "name":
                yield from self.other_operands(k)
        yield from self.other_arms()
        yield from self.other_answers()
        yield from self.dropped(self.first, self.last)

    def other_numbers(self, k):
        text, suffix = re.fullmatch(r"(0x[0-9a-fA-F_]+?|[\d_]+)([ui](?:8|16|32|64|size))?", self.tokens[k].text).groups()
        value, written = int(text.replace("_", ""), 0), "{:#x}" if text.startswith("0x") else "{}"
        # A loop that takes no step has no other end than the time limit.
        others = [value + 1] + [value - 1] * (value > (self.tokens[k - 1].text in ("+=", "-=")))
        # A long number in hex is a table of bits.
        if text.startswith("0x") and len(text) > 6:
            others += [value ^ 1 << bit for bit in range(4 * len(text.replace("_", "")) - 8)]
        for other in others:
            yield self.edit(k, k + 1, written.format(other) + (suffix or ""), "number")
        for step in (-1, 1):
            at = k + step
            while 0 <= at < len(self.tokens) and not self.is_other_number(at, value):
                at += step
            if 0 <= at < len(self.tokens):
                near = re.sub(r"[ui](8|16|32|64|size)$", "", self.tokens[at].text)
                yield self.edit(k, k + 1, near + (suffix or ""), "neighbouring number")

    def is_other_number(self, k, value):
        token = self.tokens[k]
        inside = any(item.first <= k < item.last for item in self.source.functions + self.source.constants)
        if token.kind != "number" or self.tokens[k - 1].text == "." or not inside:
            return False
        return int(re.sub(r"[ui](8|16|32|64|size)$|_", "", token.text), 0) != value

    def other_bytes(self, k):
        text = self.tokens[k].text
        for m in re.finditer(r"\\x([0-9a-fA-F]{2})", text):
            for step in (1, -1):
                other = f"\\x{(int(m.group(1), 16) + step) % 256:02x}"
                yield self.edit(k, k + 1, text[:m.start()] + other + text[m.end():], "number")

    def other_signs(self, k):
        token, text = self.tokens[k], self.source.text
        if token.text == "!":
            yield self.edit(k, k + 2, self.tokens[k + 1].text, "not")
        # With a space on both sides: no reference, no lifetime's angle.
        if not (text[token.start - 1].isspace() and text[token.end:token.end + 1].isspace()):
            return
        # A loop that counts its steps otherwise has no other end than the time limit.
        if token.text in ("+=", "-=") and self.tokens[k + 1].text == "1":
            return
        for other in COMPARED.get(token.text, ()):
            yield self.edit(k, k + 1, other, "comparison")
        for other in COUNTED.get(token.text, ()):
            yield self.edit(k, k + 1, other, "operator")

    def other_operands(self, k):
        token, before = self.tokens[k], self.tokens[k - 1].text
        if before in (".", "::", "fn") or token.text in KEYWORDS or (self.tokens[k + 1].text == ":" and k not in self.shorthands):
            return
        if token.text in ("true", "false"):
            yield self.edit(k, k + 1, "false" if token.text == "true" else "true", "truth")
            return
        named = f"{token.text}: " if k in self.shorthands else ""
        kind, stop, fields = self.path(k)
        if kind == "bool" and before != "!" and self.tokens[stop].text != "=":
            yield self.edit(k, k + 1, f"{named}!{token.text}", "not")
        for at, home in fields:
            for field in self.siblings(home, self.tokens[at].text):
                yield self.edit(at, at + 1, field, "field")
        yield from self.other_names(k, named)

    def siblings(self, home, field):
        """The methods or fields of a struct that are of the same type; the fields of every struct that has it if the struct is not known."""
        methods = [f for f in sum(self.code.functions.values(), []) if f.home and f.home == home]
        shapes = [shape_of(f) for f in methods if f.name == field]
        if shapes:
            return sorted(f.name for f in methods if f.name != field and shape_of(f) in shapes)
        homes = [home] if home in self.code.structs else self.code.field_homes.get(field, []) if home is None else []
        found = []
        for name in homes:
            types = dict(self.code.structs[name])
            found += [other for other, kind in types.items() if field in types and other != field and kind == types[field]]
        return sorted(set(found))

    def other_names(self, k, named):
        """Another variable, variant, constant or function of the same kind."""
        names, last = [self.tokens[k].text], k
        while self.tokens[last + 1].text == "::":
            last += 2
            names.append(self.tokens[last].text)
        known = self.variable(names[0], k) if len(names) == 1 else None
        if known:
            others = {v.name for v in self.variables if v.type and v.type == known.type and v.first <= k < v.last} - {known.name}
            for other in sorted(others):
                yield self.edit(k, k + 1, named + other, "variable")
        elif len(names) > 1 and names[-2] in self.code.enums:
            variants = dict(self.code.enums[names[-2]])
            for other, types in variants.items():
                if other != names[-1] and types == variants.get(names[-1]):
                    yield self.edit(last, last + 1, other, "variant")
            if self.tokens[last + 1].text == "(":
                yield from self.exchanged(last + 1, list(variants.get(names[-1], ())))
        elif self.tokens[last + 1].text == "(":
            yield from self.other_calls(last, names)
        elif self.constant(names):
            own = self.constant(names)
            for other in own.source.constants:
                if other.name != own.name and other.type == own.type and other.home == own.home:
                    yield self.edit(last, last + 1, other.name, "constant")

    def other_calls(self, last, names):
        called = self.function(names)
        if not called:
            return
        for f in sum(self.code.functions.values(), []):
            imported = self.source.imports.get(f.name) == f.source.name
            near = f.source is called.source if len(names) > 1 or called.source is self.source else imported
            if f.name != called.name and near and f.params and shape_of(f) == shape_of(called):
                yield self.edit(last, last + 1, f.name, "function")
        yield from self.exchanged(last + 1, [kind for _, kind in called.params])

    def exchanged(self, opening, types):
        """Two arguments of the same type, or two neighbours of an array."""
        parts = list(self.source.parts(opening + 1, self.source.partner[opening]))
        for i in range(len(parts)):
            for j in range(i + 1, len(parts)):
                if (types[i:i + 1] == types[j:j + 1]) if types else j == i + 1:
                    yield self.swapped(parts[i], parts[j], "exchanged")

    def swapped(self, one, two, kind):
        between = self.source.text[self.tokens[one[1] - 1].end:self.tokens[two[0]].start]
        return self.edit(one[0], two[1], self.source.text_of(*two) + between + self.source.text_of(*one), kind)

    def other_literals(self, brace):
        """Of a struct's literal: a field dropped where another value stands behind it, a sibling set in its place, two values exchanged."""
        source, tokens = self.source, self.tokens
        types = dict(self.code.structs[tokens[brace - 1].text])
        entries = list(source.parts(brace + 1, source.partner[brace]))
        based = any(tokens[first].text == ".." for first, _ in entries)
        fields = [(first, stop) for first, stop in entries if tokens[first].text in types]
        given = {tokens[first].text for first, _ in fields}
        for at, (first, stop) in enumerate(fields):
            name = tokens[first].text
            short = stop == first + 1
            if short:
                self.shorthands.add(first)
            if based:
                yield self.edit(first, stop + 1, "", "effect dropped")
                for other in [field for field in types if field not in given and types[field] == types[name]]:
                    yield self.edit(first, first + 1, f"{other}: {name}" if short else other, "field set")
            later = [entry for entry in fields[at + 1:] if types[tokens[entry[0]].text] == types[name]]
            if later and not short and later[0][1] > later[0][0] + 1:
                yield self.swapped((first + 2, stop), (later[0][0] + 2, later[0][1]), "exchanged")

    def other_branches(self, k):
        brace = self.source.find(k, self.last, "{")
        last = self.source.partner[brace]
        if self.tokens[last + 1].text == "else" and self.tokens[last + 2].text == "{":
            yes, no = (brace + 1, last), (last + 3, self.source.partner[last + 2])
            yield self.edit(*yes, self.source.text_of(*no), "other branch")
            yield self.edit(*no, self.source.text_of(*yes), "other branch")

    def other_arms(self):
        for arms in self.arms:
            texts = list(dict.fromkeys(self.source.text_of(*arm) for arm in arms))
            for arm in arms:
                for text in texts:
                    yield self.edit(*arm, text, "other branch")

    def other_answers(self):
        """The answers that end the function, each replaced by its neighbour."""
        answers = [(k + 1, self.source.find(k, self.last, ";", ",", "}")) for k in range(self.first, self.last)
                   if self.tokens[k].text == "return" and self.tokens[k + 1].text != ";"]
        last = list(self.statements(self.first, self.last))[-1:]
        if last and not last[0][2] and getattr(self.owner, "answer", "") and self.tokens[last[0][0]].text not in ("if", "match", "loop"):
            answers.append(last[0][:2])
        for at, answer in enumerate(answers):
            for other in answers[max(0, at - 1):at] + answers[at + 1:at + 2]:
                yield self.edit(*answer, self.source.text_of(*other), "other answer")

    # Statements.

    def block_ends(self, k):
        """The word after an if, match or loop that begins here."""
        last = self.source.partner[self.source.find(k, self.last, "{")] + 1
        if self.tokens[last].text != "else":
            return last
        return self.block_ends(last + 1)

    def statements(self, first, last):
        """Each statement, and whether one follows it or a semicolon ends it."""
        k = first
        while k < last:
            if self.tokens[k].text in ("if", "while", "for", "loop", "match"):
                stop = self.block_ends(k)
                yield k, stop, stop < last
                k = stop
            else:
                stop = self.source.find(k, last, ";")
                yield k, min(stop + 1, last) if stop < last else stop, stop < last
                k = stop + 1

    def dropped(self, first, last):
        if not isinstance(self.owner, Function):
            return
        for start, stop, ended in self.statements(first, last):
            word = self.tokens[start].text
            steps = self.tokens[start + 1].text == "+=" and self.tokens[start + 2].text == "1"
            if word in ("if", "while", "for", "loop", "match"):
                yield from self.dropped_block(start, stop, ended)
            elif ended and word not in ("let", "return") and not steps:
                yield self.edit(start, stop, "", "effect dropped")

    def dropped_block(self, start, stop, ended):
        word, partner = self.tokens[start].text, self.source.partner
        has_else = any(self.tokens[k].text == "else" for k in range(start, stop))
        if word == "if" and ended and not has_else:
            yield self.edit(start, stop, "", "effect dropped")
        if word == "match":
            brace = self.source.find(start, self.last, "{")
            for k in range(brace + 1, partner[brace]):
                if self.tokens[k].text == "{" and self.tokens[k - 1].text == "=>":
                    yield from self.dropped(k + 1, partner[k])
            return
        k = start
        while k < stop:
            if self.tokens[k].text == "{":
                yield from self.dropped(k + 1, partner[k])
            k = partner.get(k, k) + 1
