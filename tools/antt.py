"""antt source read as text: the definitions of a file of specs/ or proofs/, each with its comment, its type and the parameters of the modules around it; and the
citations of the docs resolved to definitions. For tools/names, tools/statements, tools/contracts and tools/promises."""
import functools, os, re

COMMENT = re.compile(r"\{-.*?-\}|(?:(?<=\s)|^)--(?=\s|$)[^\n]*|(\"[^\"\n]*\")", re.S | re.M)
HEAD = re.compile(r"((?:(?:abbrev|unfoldable|opaque|pub) )*)((?:record|data) )?([^\s(){}:=,]+)(?=\s)(.*)$", re.S)
NOT_NAMES = {"use", "mod", "module", "unfolding", "open", "mutual", "infix", "infixl", "infixr"}
CITED = re.compile(r"(?:(\w+)/)?([A-Z]\w*)\.([^\s./`]+)")
ATOM = re.compile(r"\"[^\"]*\"|[(){}]|[^\s(){}\"]+|\s+")


def without_comments(text):
    """the same text on the same lines"""
    return COMMENT.sub(lambda m: m[1] or re.sub(r"[^\n]", " ", m[0]), text)


def flat(text):
    """the text on one line, without comments"""
    return " ".join(without_comments(text).split())


def depth_of(line):
    return len(line) - len(line.lstrip())


def outside(text):
    """the atoms outside brackets, and the outermost brackets: [(place, atom)]"""
    found, depth = [], 0
    for m in ATOM.finditer(text):
        depth -= m[0] in (")", "}")
        if depth == 0:
            found.append((m.start(), m[0]))
        depth += m[0] in ("(", "{")
    return found


def parted(text, sign):
    """the text cut at each such sign outside brackets; it is not cut behind a `λ` or `let` outside brackets"""
    parts, begun = [], 0
    for at, atom in outside(text):
        if atom in ("λ", "let"):
            break
        if atom == sign:
            parts.append(text[begun:at].strip())
            begun = at + len(sign)
    return parts + [text[begun:].strip()]


def words_of(text):
    """the names, numbers and signs of a text without the fields behind dots"""
    return re.findall(r"(?<![^\s(){}])[^\s(){}.\"]+", text)


def groups(text):
    """the bracketed parts of a text that has nothing else, or None"""
    found, begun = [], None
    for at, atom in outside(text):
        if atom in ("(", "{"):
            begun = at
        elif atom in (")", "}"):
            found.append(text[begun:at + 1])
        elif atom.strip():
            return None
    return found


class Given:
    """a parameter or hypothesis: its names ([] if it has none), its type, hidden (it is in braces), and its text in the source"""

    def __init__(self, text, names, type, hidden):
        self.text, self.names, self.type, self.hidden = text, names, type, hidden


def binders(text):
    """the parts `(names : type)` and `{names : type}` of a text that has nothing else, or None"""
    found = []
    for group in groups(text) or []:
        names, colon, type = group[1:-1].partition(" : ")
        if not colon or not re.fullmatch(r"[^\s(){}]+(?: [^\s(){}]+)*", names.strip()):
            return None
        found.append(Given(group, names.split(), type.strip(), group[0] == "{"))
    return found or None


def telescope(type):
    """the parameters and hypotheses of a type, in order, and its conclusion"""
    *taken, end = parted(type, "→")
    return [given for part in taken for given in binders(part) or [Given(part, [], part, False)]], end


class Definition:
    """name; before: the words before the name (`pub`, `abbrev`); kind: "record", "data" or ""; path and line; comment: the one above it, as one line, or "";
    modules: the parameters of each module around it, outermost first; takes: its own parameters before the colon; type; text: all of it with its body, indented
    from 0."""

    def given(self):
        """the parameters of the modules around it; a head that cannot be cut is kept whole"""
        return [given for head in self.modules if head for given in binders(head) or [Given(head, [], head, False)]]

    def names(self):
        """the names that its modules and its type bind, at any depth"""
        whole = " ".join(self.modules + [self.takes, self.type])
        return {name for names in re.findall(r"[({]([^(){}:]+?) : ", whole) + re.findall(r"λ ([^.]+)\.", whole) for name in names.split()}


@functools.lru_cache(maxsize=None)
def definitions(text, path=""):
    """the definitions of a file, also those in its modules; fields of records and definitions local to a body are left out"""
    bare, kept = without_comments(text).split("\n"), text.split("\n")
    found, modules, at = [], [], 0
    while at < len(bare):
        line, begun = bare[at], at
        at += 1
        if not line.strip():
            continue
        depth = depth_of(line)
        while modules and depth <= modules[-1][0]:
            modules.pop()
        if line.split()[0] == "module":
            while not re.search(r"\bwhere\s*$", bare[at - 1]) and at < len(bare):
                at += 1
            modules.append((depth, re.sub(r"^module \S+ ?| ?where$", "", flat("\n".join(bare[begun:at])))))
            continue
        if depth != (modules[-1][0] + 2 if modules else 0):
            continue
        while at < len(bare) and (not bare[at].strip() or depth_of(bare[at]) > depth):
            at += 1
        m = HEAD.match(flat("\n".join(bare[begun:at])))
        if not m or m[3] in NOT_NAMES:
            continue
        cut = next((i for i, atom in outside(m[4]) if atom in (":", "=")), None)
        if not m[2] and (cut is None or m[4][cut] != ":"):
            continue
        takes, type = (m[4][:cut].strip(), m[4][cut + 1:].strip()) if cut is not None else (m[4].strip(), "")
        above = begun
        while above and kept[above - 1].strip().startswith("--") and depth_of(kept[above - 1]) == depth:
            above -= 1
        end = at
        if not m[2]:  # its body: the clauses that follow
            while end < len(bare) and (depth_of(bare[end]) > depth or not bare[end].strip() or re.split(r"[\s(){}]", bare[end].strip())[0] in ("unfolding", m[3])):
                end += 1
        while not bare[end - 1].strip():
            end -= 1
        names = [m[3]] if m[2] or not re.fullmatch(r"[^(){}]+", takes) else [m[3]] + takes.split()
        for name in names:
            d = Definition()
            d.name, d.before, d.kind, d.path, d.line = name, m[1].split(), (m[2] or "").strip(), path, begun + 1
            d.comment = " ".join(part.strip().lstrip("-").strip() for part in kept[above:begun])
            d.modules, d.takes, d.type = [head for _, head in modules], "" if len(names) > 1 else takes, type
            d.text = "\n".join(part[depth:].rstrip() for part in kept[begun:end])
            found.append(d)
    return found


def used(text):
    """{name in this file: (crate, specs or proofs, module, name there)} for what the `use` lines bring from the repository's crates"""
    found = {}
    for crate, part, module, names in re.findall(r"(?m)^(?:pub |ghost )?use Rattle\.(\w+)\.(specs|proofs)\.([^\s{]+)\.\{([^}]*)\}", text):
        for name, _, own in (word.strip().partition(" as ") for word in names.split(",")):
            found[own or name] = (crate, part, module, name)
    return found


def used_of_specs(text):
    """(crate, module, name) of what a file uses of specs/, by the name that it has there"""
    return {own: (crate, module, name) for own, (crate, part, module, name) in used(text).items() if part == "specs"}


def modules_of(tree):
    """{module: {crate: {name: definition}}} for specs/ and proofs/ of a tree {path: text}"""
    found = {}
    for path in sorted(tree):
        if m := re.fullmatch(r"crates/(\w+)/(?:specs|proofs)/(\w+)\.antt", path):
            found.setdefault(m[2], {}).setdefault(m[1], {}).update((d.name, d) for d in definitions(tree[path], path))
    return found


def cited(span, modules):
    """(the definition, None) for `Module.name` or `crate/Module.name`, or (None, why there is none)"""
    crate, module, name = CITED.fullmatch(span).groups()
    having = {c: names[name] for c, names in modules.get(module, {}).items() if name in names and crate in (None, c)}
    if len(having) > 1:
        return None, f"defined in {' and '.join(sorted(having))}: name the crate"
    return (next(iter(having.values())), None) if having else (None, "no such definition" + (" in that crate" if crate else ""))


def tree_of(root, more=()):
    """{path: text} for specs/ and proofs/ of every crate and for the named files"""
    tree = {}
    for crate in sorted(os.listdir(os.path.join(root, "crates"))):
        for part in ("specs", "proofs"):
            folder = os.path.join(root, "crates", crate, part)
            for name in sorted(os.listdir(folder)) if os.path.isdir(folder) else []:
                if name.endswith(".antt"):
                    tree[f"crates/{crate}/{part}/{name}"] = open(os.path.join(folder, name), encoding="utf-8").read()
    for path in more:
        if os.path.isfile(os.path.join(root, path)):
            tree[path] = open(os.path.join(root, path), encoding="utf-8").read()
    return tree
