"""Rattle source read as text: its tokens, its functions, and which of them are public. For tools/looks, tools/contracts, tools/promises and tools/names."""
import os, re

TOKEN = re.compile(r"\"[^\"\n]*\"|b'(?:\\.|[^'])'|'\w+|\w+|\.\.=?|::|->|=>|[-+*/%&|^<>=!]=|&&|\|\||\S")
COMMENT = re.compile(r"//[^\n]*|/\*.*?\*/|(\"[^\"\n]*\")", re.S)
CLAUSES = {"requires", "ensures", "decreases"}
BOUNDS = {";", "{", "}"}  # between statements
OPENING, CLOSING = {"(", "[", "{"}, {")", "]", "}"}


def without_comments(text):
    """the same text on the same lines"""
    return COMMENT.sub(lambda m: m[1] or re.sub(r"[^\n]", " ", m[0]), text)


def pairs(tokens):
    """for each bracket the place of its fellow, and for each token the place of the bracket that it stands in"""
    fellow, within, opened = {}, [], []
    for at, token in enumerate(tokens):
        if token in CLOSING and opened:
            fellow[at] = opened.pop()
            fellow[fellow[at]] = at
        within.append(opened[-1] if opened else None)
        if token in OPENING:
            opened.append(at)
    return fellow, within


def parted(tokens):
    """the parts between the commas that stand in no bracket; a comma behind the last part makes none of its own"""
    parts, depth = [[]], 0
    for token in tokens:
        depth += (token in OPENING) - (token in CLOSING)
        if token == "," and depth == 0:
            parts.append([])
        else:
            parts[-1].append(token)
    return [part for part in parts if part]


def impls(tokens, fellow):
    """[(where its block begins, where it ends, its type, whether it is an impl of a trait)]"""
    found = []
    for at, token in enumerate(tokens):
        if token != "impl" or at and tokens[at - 1] not in BOUNDS | {"]"}:
            continue
        opened = tokens.index("{", at)
        head, depth = [], 0
        for word in tokens[at + 1:opened]:  # what stands in angle brackets is left out
            depth += word == "<"
            if not depth and not word.startswith("'"):
                head.append(word)
            depth -= word == ">"
        of_trait = "for" in head
        found.append((opened, fellow[opened], head[head.index("for") + 1] if of_trait else head[0], of_trait))
    return found


def parameter(part):
    """(name, type) of a parameter; a method's first is `self`, and its type then what stands before that word"""
    if "self" in part and ":" not in part:
        return "self", part[:part.index("self")]
    return (part[1], part[3:]) if part[0] == "mut" else (part[0], part[2:])


class Function:
    """name, of a method with its type before it, as `Type::name`; place, the number of its line; public, whether `pub` stands before it; for_c, whether it is
    `unsafe(no_mangle)`; parameters [(name, type)]; result; clauses; body. Types, result, clauses and body are tokens. `lines` has the line of each token of the body, and
    `fellow` and `within` are the body's `pairs`. `owner` is the type of a method, and None for another function."""

    def __init__(self, tokens, lines, at, fellow, owner=None):
        self.owner, self.name, self.place = owner, f"{owner}::{tokens[at + 1]}" if owner else tokens[at + 1], lines[at]
        before = at - 1
        while tokens[before] in ("const", "unsafe", "extern", '"C"'):
            before -= 1
        self.public = tokens[before] == "pub"
        before -= self.public
        self.for_c = False
        while tokens[before] == "]" and tokens[fellow[before] - 1] == "#":  # an attribute
            self.for_c |= tokens[fellow[before]:before + 1] == ["[", "unsafe", "(", "no_mangle", ")", "]"]
            before = fellow[before] - 2
        opened = tokens.index("(", at)
        self.parameters = [parameter(part) for part in parted(tokens[opened + 1:fellow[opened]])]
        at, self.result, self.clauses = fellow[opened] + 1, [], []
        while tokens[at] not in ("{", ";"):
            if tokens[at] in CLAUSES:
                end = fellow[tokens.index("{", at)]
                self.clauses.append(tokens[at:end + 1])
            else:
                end = fellow.get(at, at)
                self.result += tokens[at:end + 1]
            at = end + 1
        end = fellow.get(at, at) + 1
        self.body, self.lines = tokens[at:end], lines[at:end]
        self.fellow, self.within = pairs(self.body)

    def called(self, methods=False):
        """the names that stand before a call's bracket; those of methods, which stand behind a point, only if they are asked for"""
        names = [self.named(i) for i, token in enumerate(self.body) if token == "("]
        return {self.body[i] for i in names if methods or self.body[i - 1] != "."}

    def named(self, opened):
        """where the name stands before a call's bracket; `::<..>` may stand between"""
        at = opened - 1
        if self.body[at] == ">":
            while self.body[at] != "<":
                at -= 1
            at -= 2
        return at

    def call_start(self, opened):
        """where the way to the name begins that stands before a call's bracket"""
        start = self.named(opened)
        while self.body[start - 1] == "::":
            start -= 2
        return start

    def bound(self, start, end):
        """the name that a `let` or an assignment gives to the value body[start:end], or None"""
        if self.body[start - 1] != "=" or self.body[end] != ";":
            return None
        begun = max(i for i in range(start) if self.body[i] in BOUNDS)
        words = [token for token in self.body[begun + 1:start - 1] if token not in ("let", "mut")]
        return words[0] if len(words) == 1 or words[1:2] == [":"] else None

    def returns(self, start, end):
        """whether body[start:end] is what the function returns: behind `return`, or where nothing but the ends of blocks and other branches follow"""
        if self.body[start - 1] == "return":
            return self.body[end] == ";"
        while end < len(self.body) - 1:
            if self.body[end] == "else":
                end = self.fellow[self.body.index("{", end)]
            elif self.body[end] != "}":
                return False
            end += 1
        return self.body[start - 1] in BOUNDS

    def returned(self):
        """where each returned value begins and ends; the last is empty where the body ends with a statement or a block"""
        for i, token in enumerate(self.body):
            if token == "return":
                yield i + 1, next(j for j in range(i, len(self.body)) if self.body[j] == ";" and self.within[j] == self.within[i])
        yield max(i for i, token in enumerate(self.body[:-1]) if token in BOUNDS) + 1, len(self.body) - 1


def functions(text):
    """the functions of a file; its comments are passed over"""
    found = [(m[0], number) for number, line in enumerate(without_comments(text).split("\n"), 1) for m in TOKEN.finditer(line)]
    tokens, lines = [token for token, _ in found], [number for _, number in found]
    fellow, _ = pairs(tokens)
    blocks = impls(tokens, fellow)
    owner = lambda at: next((kind for begin, end, kind, _ in blocks if begin < at < end), None)
    return [Function(tokens, lines, at, fellow, owner(at)) for at, token in enumerate(tokens) if token == "fn" and tokens[at + 1] not in OPENING]


DERIVED = {"lt": "PartialOrd", "eq": "PartialEq"}  # the comparisons `<` and `==`, and the traits that have them


def types(text):
    """{name: (derives, fields {name: type}, its first and last line)} of the structs and enums that a file declares; the fields of a struct in order, with those that its
    comparisons skip left out, and the types as words"""
    found, bare = {}, without_comments(text)
    for m in re.finditer(r"(?ms)(?:^|(?<=\} ))((?:#\[[^\n]*\]\s*)*)(?:pub )?(?:struct|enum) (\w+)[^{};]*(?:\{(.*?)^\}|;)", bare):
        fields = {}
        for part in parted([token[0] for token in TOKEN.finditer(m[3] or "")]):
            head = part[:part.index(":")] if ":" in part else []
            if head and "skip" not in head:
                fields[head[-1]] = part[len(head) + 1:]
        first = bare.count("\n", 0, m.start()) + 1
        found[m[2]] = re.findall(r"\w+", m[1]), fields, (first, first + m[0].count("\n"))
    return found


def derived(text):
    """the comparisons that the types of a file derive, as `Type::lt` and `Type::eq`"""
    return {f"{name}::{way}" for name, (derives, _, _) in types(text).items() for way, trait in DERIVED.items() if trait in derives}


def handed_on(text):
    """the names that a file's `pub use` lines hand on, as they are called where they come from; * for all"""
    names = set()
    for way in re.findall(r"\bpub\s+use\s+([^;]+);", without_comments(text)):
        for part in way.partition("{")[2].rstrip("} \n").split(",") if "{" in way else [way]:
            names.add(part.split(" as ")[0].strip().split("::")[-1])
    return names - {""}


def fact(clause):
    """what a clause says: the tokens between its outer braces, which its name may stand before"""
    return clause[clause.index("{") + 1:-1]


def read_file(path):
    return open(path, encoding="utf-8").read() if os.path.isfile(path) else None


def public_functions(src, read=read_file):
    """[(path, function)] of a library's src: what is `pub`, and re-exported (a method: its type) or in modules that are `pub` all the way; and what is for C. A program has
    none"""
    found, names, todo = [], set(), [(os.path.join(src, "lib.rt"), True)]
    if read(todo[0][0]) is None:
        return []
    for path, open_way in todo:
        text = read(path)
        names |= handed_on(text)
        found += [(path, open_way, f) for f in functions(text)]
        home = os.path.dirname(path) if os.path.basename(path) in ("lib.rt", "mod.rt") else path[:-len(".rt")]
        for public, module in re.findall(r"(?m)^\s*(pub\s+)?mod\s+(\w+)\s*;", without_comments(text)):
            for file in (os.path.join(home, module + ".rt"), os.path.join(home, module, "mod.rt")):
                if read(file) is not None:
                    todo.append((file, open_way and bool(public)))
    return [(path, f) for path, open_way, f in found if f.for_c or f.public and (open_way or (f.owner or f.name) in names or "*" in names)]
