"""Spoilt copies of the tree for tools/looks --try. Each copy is spoilt in one way, and must be noticed for that reason.

The places to spoil are looked up in the tree itself: the first look, the first count that starts or is added, a public function that has the line, a function
that reads an edge, the function that fills the join area. Of the source only the statement of that copy is quoted here.
"""
import re

LOOK = re.compile(r"(?m)^([ \t]*)looks \+= 1; // one look[^\n]*\n")
ADDED = re.compile(r"looks \+= \w+\.looks;\n")
START = re.compile(r"let mut looks(?:: usize)? = 0;")
NO_SUM = "neither a look, nor 0"
NOT_FOLLOWED = "the line goes where it is not followed"
NO_LOOK = "an edge of the line is used without a look"
NOT_COUNTED = "is asked whether it is a mark, and is not counted"
NO_ROW = "has no row for what it takes of the line"
HIDDEN = "the line's struct is part of another type or has another name"


def copies(tree, check):
    """(what is wrong, the copy, a part of the fault that must be reported)"""
    page = "docs/LOOKS.md"
    file = next(path for path in sorted(tree) if path != page and LOOK.search(tree[path]))
    adder = next(path for path in sorted(tree) if ADDED.search(tree[path]))
    public = next(f for f in check.all if f.public and "line" in f.line_names and f.name not in set().union(*(g.called() for g in check.all)))
    reader = next(f for f in check.all if f.uses and any("[" in read for read in f.reads))
    giver = sorted(check.givers)[0]
    marks = check.functions["is_mark"][0].path
    uncut = next(f for f in check.all if "line" in f.line_names and not f.cuts and not f.reads)
    copy = check.functions["fill_join"][0]
    structed = next(f for f in check.all if "parts" in f.struct_names)

    def with_text(path, text):
        return {**tree, path: text}

    def at_look(new, more=""):
        """the file with its first look replaced by `new`, in which {look} stands for it, and with more functions at its end"""
        return with_text(file, LOOK.sub(lambda m: new.replace("{look}", m[0]), tree[file], count=1) + more)

    def at_start(new):
        return with_text(file, START.sub(new, tree[file], count=1))

    def at_start_of(f, new, more=""):
        """statements at the beginning of a function"""
        lines = tree[f.path].split("\n")
        return with_text(f.path, "\n".join(lines[:f.lines[0]] + [new] + lines[f.lines[0]:]) + more)

    def in_public(new, more=""):
        """statements at the beginning of a public function that has the line"""
        return at_start_of(public, new, more)

    def without_row(start):
        return with_text(page, re.sub(rf"(?m)^{start}.*\n", "", tree[page], count=1))

    computed = "fn computed(m: usize) -> usize {\n    m * m\n}\n"
    yield "the product of a function is added", at_look("{look}looks += computed(m);\n", computed), NO_SUM
    yield "a function calls its product looks", at_look("{look}looks += computed(m);\n", "fn computed(m: usize) -> usize {\n    let looks = m * m;\n    looks\n}\n"), NO_SUM
    yield "a function that counts a look returns a product", at_look("{look}looks += computed(m, edge);\n", "fn computed(m: usize, edge: u8) -> usize {\n    let mut looks = 0;\n    let same = edge == 0;\n    looks += 1; // one look\n    looks * m\n}\n"), NO_SUM
    yield "a product is added", at_look("{look}looks += m * m;\n"), NO_SUM
    yield "a number is added", at_look("{look}looks += 2;\n"), NO_SUM
    yield "a count is multiplied", at_look("{look}looks += looks * 2;\n"), NO_SUM
    yield "a count is added twice", with_text(adder, ADDED.sub(lambda m: m[0] * 2, tree[adder], count=1)), NO_SUM
    yield "a count is added to itself", at_look("{look}looks += looks;\n"), NO_SUM
    yield "a count is set", at_look("{look}looks = m;\n"), NO_SUM
    yield "a count starts at another number", at_start("let mut looks: usize = m;"), NO_SUM
    yield "a count is bound by a pattern", at_start("let (mut looks, _) = (m, 0);"), NO_SUM
    yield "a count is lent", at_look("{look}raise(&mut looks);\n"), NO_SUM
    yield "a count is a parameter", with_text(file, tree[file] + "fn raised(looks: usize) -> usize {\n    looks\n}\n"), "a parameter is named `looks`"
    yield "a field is given a product", with_text(file, tree[file] + "fn least_with(m: usize) -> Least {\n    Least { least: 0, looks: m * m }\n}\n"), NO_SUM
    yield "a look without its mark", at_look("looks += 1;\n"), NO_SUM
    yield "a mark without its look", at_look("// one look\n"), "the mark of a look"
    yield "a look without a read beside it", at_look("{look}{look}"), "and 0 edges are read or compared"
    yield "a look before the read", with_text(file, START.sub(lambda m: m[0] + "\nlooks += 1; // one look\n", tree[file], count=1)), "and 0 edges are read or compared"
    yield "a look in a branch", at_look("if m < 9 {\n{look}}\n"), NO_LOOK
    yield "an edge without its look", at_look(""), NO_LOOK
    yield "the line read under another name", in_public("let edges = line;\nlet first = edges[0];"), NO_ROW
    yield "the line read under a name of that name", in_public("let edges: &[u8] = &line[..];\nlet others = edges;\nlet first = others[0] + 1;"), NO_LOOK
    yield "an edge compared without a look", in_public("if line[0] == 7 {\n    return;\n}"), NO_LOOK
    yield "an edge of a window read without a look", in_public(f"let first = {giver}(line, 0, 1)[0] as usize;"), NO_LOOK
    yield "an edge read in a function that the line is passed to", in_public("let first = first_of(line);", "fn first_of(edges: &[u8]) -> u8 {\n    edges[0]\n}\n"), NO_LOOK
    yield "an edge compared in a function that it is passed to", in_public("let same = is_it(line[0]);", "fn is_it(edge: u8) -> bool {\n    edge == 7\n}\n"), NO_LOOK
    yield "an edge read only to ask for a mark", in_public("let marked = is_mark(line[0]);"), NOT_COUNTED
    yield "an edge with a name read only to ask for a mark", in_public("let first = line[0];\nlet marked = is_mark(first);"), NOT_COUNTED
    yield "a test for a mark that tests something else", with_text(marks, tree[marks].replace("edge == MARK", "edge == 7")), NO_LOOK
    yield "the line as a field", in_public("let kept = Kept { line };"), NOT_FOLLOWED
    yield "the line in a pair", in_public("let pair = (line, 0);"), NOT_FOLLOWED
    yield "the line of a branch", in_public("let edges = if k == 0 { line } else { ring };"), NOT_FOLLOWED
    yield "a method called on the line", in_public("let first = line.first();"), NOT_FOLLOWED
    yield "the line passed to a function outside these crates", in_public("let sum = checksum(line);"), NOT_FOLLOWED
    yield "a loop over the line", in_public("for edge in line {\n}"), NOT_FOLLOWED
    yield "the line lent by &mut", in_public("let mut edges = line;\nnext_part(&mut edges);"), NOT_FOLLOWED
    yield "the line under another name in a public function", with_text(public.path, re.sub(r"\bline\b", "edges", tree[public.path])), "is neither the line nor"
    yield "the line under the book's name in a public function", with_text(public.path, re.sub(r"\bline\b", "book", tree[public.path])), "has no line"
    yield "the line cut in another function", at_start_of(uncut, "let part = &line[1..];"), NO_ROW
    yield "an edge stored into the join area in another function", in_public("join[0] = line[0];"), "something is stored into the line's edges"
    yield "a part copied into the join area in another function", in_public("join[..1].copy_from_slice(&line[..1]);"), "something is stored into the line's edges"
    yield "a copy of something else", with_text(copy.path, tree[copy.path].replace("&line[n - ends..]", "&ring[..ends]")), "no part of the line"
    yield "a copy into the line", with_text(copy.path, tree[copy.path].replace("join[..ends].copy_from_slice(&line[", "line[..ends].copy_from_slice(&join[")), "something is stored into the line's edges"
    yield "a place stored in the filled area", with_text(copy.path, tree[copy.path].replace("join[..ends].copy", "join[0] = 7;\n    join[..ends].copy")), "something is stored into the line's edges"
    yield "an item of the line compared without a look", in_public("for edge in line.iter() {\nlet same = *edge == 7;\n}"), NO_LOOK
    yield "an item of the line asked only for a mark", in_public("for edge in line.iter() {\nlet marked = is_mark(*edge);\n}"), NOT_COUNTED
    yield "the struct of the line passed on to a function outside these crates", at_start_of(structed, "let sum = checksum(parts);"), NOT_FOLLOWED
    made, plain = "LineParts { line, join: line }", tree[public.path]
    alone = "fn {name}({of}) -> {result} {{\n    {body}\n}}\n"
    yield "an edge compared by a name that `let` gives to the struct", in_public(f"let whole = {made};\nif 0 < whole.line.len() && whole.line[0] == 7 {{\n    return;\n}}"), NO_LOOK
    yield "an edge compared by a name of the struct, for a value that changes nothing", in_public(f"let whole = {made};\nlet seven = !whole.line.is_empty() && whole.line[0] == 7;\nlet most = if seven {{ k }} else {{ k }};"), NO_LOOK
    yield "an edge read by a name of the struct", in_public(f"let whole = {made};\nlet first = whole.line[0];"), NO_ROW
    yield "an edge compared by the second name of the struct", in_public(f"let whole = {made};\nlet mut other = whole;\nlet seven = other.join[0] == 7;"), NO_LOOK
    yield "an edge compared by a name that is given to the struct later", in_public(f"let whole;\nwhole = {made};\nlet seven = whole.line[0] == 7;"), NO_LOOK
    yield "an edge compared by a name of a parameter that is the struct", at_start_of(structed, "let whole: LineParts<'a> = parts;\nlet seven = whole.line[0] == 7;"), NO_LOOK
    yield "an edge compared in the struct as it is made", in_public(f"let seven = {made}.line[0] == 7;"), NO_LOOK
    yield "an edge compared in a window of the struct as it is made", in_public(f"let seven = {made}.window(LinePlace(0), 1)[0] == 7;"), NO_LOOK
    yield "an edge compared in a window by a name of the struct", in_public(f"let whole = {made};\nlet seven = whole.window(LinePlace(0), 1)[0] == 7;"), NO_LOOK
    yield "an edge compared in a window by the path of the method", at_start_of(structed, "let seven = LineParts::window(parts, LinePlace(0), 1)[0] == 7;"), NO_LOOK
    yield "an edge compared in what a function returns of the struct", at_start_of(structed, "let seven = edges_of(parts)[0] == 7;", alone.format(name="edges_of", of="parts: LineParts<'_>", result="&[u8]", body="parts.line")), NO_LOOK
    maker = alone.format(name="whole_of", of="edges: &[u8]", result="LineParts<'_>", body="LineParts { line: edges, join: edges }")
    yield "an edge compared in the struct that a function returns", in_public("let seven = whole_of(line).line[0] == 7;", maker), NO_LOOK
    yield "an edge compared by a name of the struct that a function returns", in_public("let whole = whole_of(line);\nlet seven = whole.line[0] == 7;", maker), NO_LOOK
    yield "the struct in a pair that a function returns", in_public("let (whole, m) = pair_of(line);\nlet seven = whole.line[0] == 7;", alone.format(name="pair_of", of="edges: &[u8]", result="(LineParts<'_>, usize)", body="(LineParts { line: edges, join: edges }, 0)")), NOT_FOLLOWED
    yield "an edge compared in a function that the struct is passed to under another type", in_public(f"let seven = is_seven({made});", "fn is_seven<P: Parts>(whole: P) -> bool {\n    whole.line[0] == 7\n}\n"), NO_LOOK
    yield "an edge compared in a copy of the struct", at_start_of(structed, "let seven = parts.clone().line[0] == 7;"), NOT_FOLLOWED
    yield "an edge compared in brackets", at_start_of(structed, "let seven = (parts).line[0] == 7;"), NOT_FOLLOWED
    yield "the struct taken apart in an argument", at_start_of(structed, "let n = part_end(match parts {\n    LineParts { line: edges, join: _ } => usize::from(edges[0]),\n}, 1);"), NOT_FOLLOWED
    yield "the struct taken apart by `let`", at_start_of(structed, "let LineParts { line: edges, join: _ } = parts;\nlet seven = edges[0] == 7;"), NOT_FOLLOWED
    yield "an edge of a struct in an array, as an argument", with_text(public.path, plain + "fn seven_of(all: &[LineParts<'_>]) -> usize {\n    part_end(usize::from(all[0].line[0]), 1)\n}\n"), NOT_FOLLOWED
    yield "an edge compared in a closure that takes the struct", in_public(f"let read = |whole: LineParts<'_>| whole.line[0] == 7;\nlet seven = read({made});"), NO_LOOK
    yield "an edge compared in a closure by the name of a function", in_public("let part = |edges: &[u8]| edges[0] == 7;\nlet seven = part(line);"), NOT_FOLLOWED
    yield "an edge compared in a closure in a pair, by the name of a function", in_public("let (part, n) = (|edges: &[u8]| edges[0] == 7, 1);\nlet seven = part(line);"), NOT_FOLLOWED
    yield "an edge passed to a method by the name of a function", in_public("let seven = sums.double(line[0]);"), NO_LOOK
    yield "the line passed to a function of a type by the name of a function", in_public("let sum = Sums::double(line);"), NOT_FOLLOWED
    yield "a method called on the struct by the name of a function", at_start_of(structed, "let seven = parts.double(0);"), NOT_FOLLOWED
    yield "an item of the struct's line asked only for a mark", at_start_of(structed, "for edge in parts.line.iter() {\n    let marked = is_mark(*edge);\n}"), NOT_COUNTED
    yield "the struct in a struct", with_text(public.path, plain + "struct Held<'a> {\n    parts: LineParts<'a>,\n}\nfn seven_of(held: Held<'_>) -> bool {\n    held.parts.line[0] == 7\n}\n"), HIDDEN
    yield "the struct under another name in its module", with_text(public.path, plain + "type Whole<'a> = LineParts<'a>;\nfn seven_of(whole: Whole<'_>) -> bool {\n    whole.line[0] == 7\n}\n"), HIDDEN
    yield "the struct used under another name", with_text(public.path, plain + "use windows::LineParts as Whole;\nfn seven_of(whole: Whole<'_>) -> bool {\n    whole.line[0] == 7\n}\n"), HIDDEN
    yield "items of the line beside others", in_public("for (edge, at) in line.iter().zip(0..9) {\n    let seven = *edge == 7;\n}"), NOT_FOLLOWED
    yield "items of the line sifted, and one look for each that is left", in_public("for edge in line.iter().filter(|edge| **edge == 7) {\n    looks += 1; // one look\n}"), NOT_FOLLOWED
    yield "edges copied elsewhere where the join area is filled", with_text(copy.path, tree[copy.path].replace("join[..ends].copy", "let mut kept = [0; 9];\n    kept[..ends].copy_from_slice(&line[..ends]);\n    let seven = kept[0] == 7;\n    join[..ends].copy")), NOT_FOLLOWED
    moved = re.sub(r"\b%s\[([^\]]*)\]" % reader.reads[0].split("[")[0], lambda m: m[0].replace("[", ", ").replace("]", ")").replace(m[0].split("[")[0], "edge_at(" + m[0].split("[")[0], 1), tree[reader.path])
    yield "a read moved out of its function", with_text(reader.path, moved + "fn edge_at(edges: &[u8], place: usize) -> u8 {\n    edges[place]\n}\n"), NO_ROW
    yield "no row for a read", without_row(r"\| `%s` \(" % reader.name), NO_ROW
    yield "no row for a look", without_row(r"\| crates/[^|]*`looks \+= 1; // one look"), "has not one row for each"
    yield "a row for a look that is not there", with_text(page, re.sub(r"(?m)^\| crates/[^|]*`looks \+= 1; // one look.*\n", lambda m: m[0] * 2, tree[page], count=1)), "has not one row for each"
    yield "a function that passes a count on is not named", with_text(page, tree[page].replace(f"`{public.name}`", "it").replace(f"::{public.name}`", "::it`")), "does not name it"
    yield "a function is named that is gone", with_text(page, tree[page] + "`gone_from_here`\n"), "is no function"
