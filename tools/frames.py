"""The stack pointer followed through a disassembly, for tools/stack.

The disassembly is that of `objdump -dr --no-show-raw-insn`, for x86-64 or aarch64; llvm-objdump's is read too. In each function the stack pointer is
followed along every way from the first instruction. What may change it: a push, a pop, a number added or subtracted (so clang's probes of a frame above
a page too), on aarch64 a load or a store that moves it. What is addressed below it, by the stack pointer itself, counts (the red zone). Every place
must have one depth, and a function must return, or jump to another, at the depth at which it began. Calls go to functions of the archive or of OUTSIDE.
Of OUTSIDE the return address alone is counted: their frames are not in the archive. All else is a fault: any other change of the stack pointer, a loop
that lowers it (clang writes one for a frame of many pages), a call or a jump through a register or a table or behind a prefix, a function that comes
back to itself, bytes that objdump does not read as an instruction.
"""
import re

OUTSIDE = {"memset", "memcpy", "memmove", "memcmp", "bcmp"}
NUMBER = r"(-?(?:0x[0-9a-f]+|\d+))"
STRAY, UNREAD = "a change of the stack pointer that is not followed", "what objdump does not read as an instruction"


class Fault(Exception):
    pass


def number(text):
    """as 64 bits with a sign"""
    value = int(text, 0)
    return value - (1 << 64) if value >> 63 == 1 else value


class X86:
    name, exact, pushed = "x86-64", True, 8
    call, jump, branch, end = "call", "jmp", r"j\w+|loop\w*", r"ret|ud2|hlt|int3"
    odd = r"(call|j\w+) .*\*|l(call|jmp|ret)|iret|sys|\S+ .*\b(call|jmp|ret)\b"
    below = re.compile(NUMBER + r"\(%rsp")

    @staticmethod
    def lowered(text):
        """by how many bytes an instruction lowers the stack pointer"""
        if m := re.fullmatch(rf"(sub|add) \${NUMBER},%rsp", text):
            return number(m[2]) if m[1] == "sub" else -number(m[2])
        if m := re.fullmatch(rf"lea {NUMBER}\(%rsp\),%rsp", text):
            return -number(m[1])
        if m := re.fullmatch(r"(push|pop) (?!%rsp$).+", text):
            return 8 if m[1] == "push" else -8
        last = re.search(r"[ ,]%([re]?sp|spl)$", text) and not re.match("(cmp|test)[bwlq]? ", text)
        if last or re.match(r"push|pop(?!cnt)|leave|enter|x(chg|add).*%[re]?spl?\b", text):
            raise Fault(STRAY)
        return 0


class Arm:
    name, exact, pushed = "aarch64", False, 0
    call, jump, branch, end, odd = "bl", "b", r"bc?\.\w+|cbn?z|tbn?z", r"ret|brk|udf", r"br(?!k)|blr|ret\w"
    below = re.compile(rf"\[sp, #{NUMBER}\]$")

    @staticmethod
    def lowered(text):
        if m := re.fullmatch(rf"(sub|add) sp, sp, #{NUMBER}(, lsl #12)?", text):
            return number(m[2]) * (4096 if m[3] else 1) * (1 if m[1] == "sub" else -1)
        if m := re.search(rf"\[sp, #{NUMBER}\]!$|\[sp\], #{NUMBER}$", text):
            return -number(m[1] or m[2])
        if re.match(r"(?!cmp|cmn)\S+ w?sp,", text) or re.search(r"\[sp.*\]!|\[sp\],", text):
            raise Fault(STRAY)
        return 0


class Archive:
    """functions {name: {place: (instruction, where it goes: a place, or the name of another function)}}"""

    def __init__(self, listing):
        self.faults, self.functions, self.ways = [], {}, {}
        self.processor = Arm if re.search("file format .*aarch64", listing) else X86
        name, code, at = "", {}, 0
        for line in listing.split("\n"):
            if m := re.match(r"[0-9a-f]+ <(.+)>:$", line):
                name, code = m[1], self.functions.setdefault(m[1], {})
                self.faults += [f"{name}: two functions have this name"] if code else []
            elif (m := re.match(r"\s+[0-9a-f]+:\s+R_\w+\s+(\S+)$", line)) and code:
                code[at] = (code[at][0], re.sub(r"^\.text\.|-0x4$" if self.processor.pushed else r"^\.text\.", "", m[1]))
            elif m := re.match(r"\s*([0-9a-f]+):\s+(\S.*)$", line):
                at, text = int(m[1], 16), re.sub(r"\s+", " ", re.split(r"\s+(?://|#) ", m[2])[0])
                goes = re.search(r"[ ,](?:0x)?([0-9a-f]+) <(.+)>$", text)
                own = goes and goes[2].split("+0x")[0] == name
                text = re.sub(r"^(?:(?:bnd|notrack|repz) )?(call|jmp|ret|push|pop)q?(?= |$)", r"\1", text)
                code[at] = (text, int(goes[1], 16) if own else goes and goes[2])

    def follow(self, name):
        """the deepest point of a function by itself, and [(depth, callee)]"""
        places, deepest, calls, depths = list(self.functions[name]), 0, set(), {}
        code, after, todo = self.functions[name], dict(zip(places, places[1:])), [(places[0], 0)]
        while todo:
            at, depth = todo.pop()
            if depths.get(at) == depth:
                continue
            text, goes = code.get(at, ("", None))
            try:
                if at in depths or not text:
                    raise Fault(f"reached at two depths, {depths[at]} and {depth}" if text else "it runs on past its end")
                depths[at] = depth
                lowest, depth, goes_on, goes = self.step(text, goes, depth)
            except Fault as why:
                self.faults.append(f"{name} at {at or 0:x}: {why}: {text}")
                continue
            deepest = max(deepest, lowest)
            calls |= {goes} if isinstance(goes, tuple) else set()
            todo += [(after.get(at), depth)] * goes_on + [(goes, depth)] * isinstance(goes, int)
        return deepest, sorted(calls)

    def step(self, text, goes, depth):
        """of an instruction: the deepest point that it touches, the depth behind it, whether the next follows, a place to go to or (depth, callee)"""
        p, op = self.processor, text.split(" ")[0]
        jumps = op == p.jump or re.fullmatch(p.branch, op)
        if not op[0].isalpha():
            raise Fault(UNREAD)
        if re.match(p.odd, text) or goes is None and (jumps or op == p.call):
            raise Fault("a call or a jump that is not direct")
        if op == p.call and isinstance(goes, int):
            raise Fault("a call into the function itself")
        if op == p.call:
            return depth, depth, True, (depth, goes)
        if jumps and isinstance(goes, str) and depth:
            raise Fault(f"a jump to another function at depth {depth}")
        if jumps:
            return depth, depth, op != p.jump, goes if isinstance(goes, int) else (-p.pushed, goes)
        if op == "ret" and (depth or text != op):
            raise Fault(f"a return at depth {depth}")
        if re.fullmatch(p.end, op):
            return depth, depth, False, None
        lower = depth + p.lowered(text)
        return max([lower] + [depth - number(below) for below in p.below.findall(text)]), lower, True, None

    def way(self, name, above=()):
        """[(function, what it holds)] to the deepest point that a function reaches"""
        if name in above:
            self.faults.append(f"{above[-1]}: it calls {name}, which has called it")
        elif name not in self.functions and name not in OUTSIDE:
            self.faults.append(f"{above[-1]}: it calls {name}, which is neither in the archive nor one of OUTSIDE")
        if name in above or name not in self.functions:
            return [(name, 0)]
        if name not in self.ways:
            own, calls = self.follow(name)
            ways = [[(name, own)]] + [[(name, depth)] + self.way(callee, above + (name,)) for depth, callee in calls]
            self.ways[name] = max(ways, key=self.bytes)
        return self.ways[name]

    def bytes(self, way):
        return sum(holds for _, holds in way) + self.processor.pushed * len(way)
