"""Spoilt copies for tools/stack --try: of the page, of the header, of the archive's listing, and of small listings made up for both processors."""
import re

import frames

# Small listings whose figures are known: a probe, a way round the call, a loop, a jump to another function; on x86-64 pushed arguments and a red zone.
MADE = {"x86-64": ("| `scan` | `scan` 4,152, `deep` -8, `last` 24 | 4,192 |", """
x.o:     file format elf64-x86-64

0000000000000000 <outlines_scan>:
   0:	push   %rbx
   1:	sub    $0x1000,%rsp
   8:	movq   $0x0,(%rsp)
  10:	sub    $0x20,%rsp
  14:	test   %rdi,%rdi
  17:	je     24 <outlines_scan+0x24>
  19:	push   %rax
  1a:	push   $0x1
  1c:	callq  21 <outlines_scan+0x21>
			1d: R_X86_64_PLT32	.text.a::b::deep-0x4
  21:	lea    0x10(%rsp),%rsp
  24:	add    $0x1020,%rsp
  2b:	pop    %rbx
  2c:	retq

0000000000000000 <a::b::deep>:
   0:	cmp    %rsp,%rsi
   3:	jne    0 <a::b::deep>
   5:	jmp    a <last>
			6: R_X86_64_PLT32	last-0x4

0000000000000000 <last>:
   0:	mov    %rax,-0x18(%rsp)
   5:	ret
"""), "aarch64": ("| `scan` | `scan` 4,208, `deep` 0, `last` 32 | 4,240 |", """
x.o:     file format elf64-littleaarch64

0000000000000000 <outlines_scan>:
   0:	stp	x29, x30, [sp, #-96]!
   4:	mov	x29, sp
   8:	sub	sp, sp, #0x1, lsl #12  // =4096
   c:	str	xzr, [sp]
  10:	sub	sp, sp, #0x10
  14:	cbz	x0, 1c <outlines_scan+0x1c>
  18:	bl	0 <a::b::deep>
			18: R_AARCH64_CALL26	.text.a::b::deep
  1c:	add	sp, sp, #0x1, lsl #12
  20:	add	sp, sp, #16
  24:	ldp	x29, x30, [sp], #96
  28:	ret

0000000000000000 <a::b::deep>:
   0:	cmp	sp, x1
   4:	b.ne	0 <a::b::deep>  // b.any
   8:	b	0 <last>
			8: R_AARCH64_JUMP26	last

0000000000000000 <last>:
   0:	str	x19, [sp, #-32]!
   4:	ldr	x19, [sp], #32
   8:	ret
""")}
# What may not stand in place of the first instruction of such a listing; nor in place of the two of its loop.
STRAY, INDIRECT, RETURN = frames.STRAY, "a call or a jump that is not direct", "a return at depth"
WRONG = {"x86-64": [("mov %rbp,%rsp", STRAY), ("sub %rax,%rsp", STRAY), ("and $0xffffffffffffffe0,%rsp", STRAY), ("xchg %rsp,%rax", STRAY),
                    ("cmpxchg %rax,%rsp", STRAY), ("pop %rsp", STRAY), ("leave", STRAY), ("call *%rax", INDIRECT), ("jmp *0x0(,%rax,8)", INDIRECT),
                    ("addr32 call 0 <a::b::deep>", INDIRECT), ("(bad)", frames.UNREAD), ("nop", RETURN)],
         "aarch64": [("mov sp, x9", STRAY), ("sub sp, sp, x9", STRAY), ("and sp, x9, #0xffffffffffffffe0", STRAY), ("ld1 {v0.16b}, [sp], x9", STRAY),
                     ("blr x9", INDIRECT), ("br x9", INDIRECT), (".inst 0x00000000", frames.UNREAD), ("nop", RETURN)]}
LOWERS = {"x86-64": "sub $0x1000,%rsp", "aarch64": "sub sp, sp, #1, lsl #12"}


def copies(tree, check, section):
    """(what is wrong, the copy, a part of the fault that must be reported); check is that of the tree"""
    def on_page(what, old, new, why):
        return what, {**tree, "page": tree["page"].replace(old, new)}, why

    def in_code(what, old, new, why, listing=tree["listing"]):
        return what, {**tree, "listing": re.sub(old, new, listing, count=1)}, why

    row, (upper, lower) = check.stated["scan"], [name for name, _ in check.archive.way("outlines_scan") if name in check.archive.functions][-2:]
    name, holds = max(check.rows["scan"], key=lambda each: each[1])
    yield on_page("a deepest point on the page", row, row.replace(row.split(" | ")[-1], "16 |"), "the archive has | `scan` |")
    yield on_page("a row left out", row + "\n", "", "no row; the archive has | `scan` |")
    if check.processor.exact:
        yield on_page("what a function holds, on the page", row, re.sub(rf"`{name}` [\d,]+(?=,)", f"`{name}` 8", row), "the archive has | `scan` |")
        yield on_page("a function of a way left out", row, re.sub(rf"`{name}` [\d,]+, ", "", row), "the archive has | `scan` |")
        yield on_page("a row more", row, row + "\n" + row.replace("| `scan` |", "| `gone` |"), "a row for `gone`")
    yield on_page("no table", f"\n| {check.processor.name} |", "\n| another |", "no row")
    yield on_page("no section", section, "## Another section", "no row")
    yield on_page("a lower bar", f"| {check.bars['scan']:,} |", f"| {check.deepest('scan') - 1:,} |", "docs/LOOKS.md allows")
    other = next(line for line in tree["page"].split("\n") if line.startswith("| `scan` |") and line != row)
    yield on_page("too high a figure of another processor", other, re.sub(r"[\d,]+ \|$", "6,001 |", other), "has 6,001 bytes, and it allows 6,000")
    yield on_page("no bar", "| `survey` |", "| `another` |", "survey: ")
    yield on_page("no bar of a call that does not search", "| `pack` | 200 |", "| `another` | 200 |", "pack: ")
    for what, old, new in [("a figure of the header", "outlines_scan_two_way 6,400", "outlines_scan_two_way 6,000"), ("a figure of the header left out", "outlines_pack 200, ", ""),
                           ("a figure given twice", "outlines_pack 200, ", "outlines_pack 200, outlines_pack 200, "), ("no paragraph in the header", " * Stack. ", " * ")]:
        yield what, {**tree, "header": tree["header"].replace(old, new)}, "include/outlines.h: "
    yield in_code("a function outside", r"(R_\w+\s+)memset", r"\1malloc", "it calls malloc, which is neither")
    yield in_code("a function that comes back", rf"(<{lower}>:\n(?:.*\n)*?.*R_\w+\s+)mem\w+", rf"\1{upper}", "which has called it")
    yield in_code("two functions of one name", r"<outlines_pack>:", "<outlines_scan>:", "two functions have this name")
    yield in_code("two functions of one name on the page", r"<outlines_pack>:", "<a::b::scan>:", "another function has this name on the page")
    yield in_code("a call less", r"<outlines_pack>:", "<outlines_park>:", "outlines_pack: it is not in the archive")
    yield in_code("x86-64: a call without its name", r"\n\s+1d: R_.*", "", "a call into the function itself", MADE["x86-64"][1])
    for processor, (figures, listing) in MADE.items():
        bare = tree["page"].replace(section, "## Another section")  # without its table every row is reported
        yield f"{processor}: figures that are known", {**tree, "page": bare, "listing": listing}, "the archive has " + figures
        yield in_code(f"{processor}: a loop that lowers", r"cmp\s.*", LOWERS[processor], "reached at two depths", listing)
        yield in_code(f"{processor}: a jump to another function", r"(jne|b\.ne)\s.*", LOWERS[processor], "another function at depth 4096", listing)
        for instruction, why in WRONG[processor]:
            yield in_code(f"{processor}: {instruction}", r"0:\s.*", "0:\t" + instruction, why, listing)
    yield "a stack of 4,096 bytes", {**tree, "size": 4096}, "overflow"
    for what, old, new, why in [("a paint above the bar", r"\nscan: \d+", "\nscan: 6001", "bytes by its paint, and docs/LOOKS.md allows"),
                                ("a paint that does not go deep", r"\nscan: \d+", "\nscan: 8", "do not reach"),
                                ("a paint far below what is read off", r"idle: \d+", "idle: 0", "are read off the archive"),
                                ("a call that was not run", r"\nscan: .*", "", "tools/stack.c printed nothing of it"),
                                ("a run that ends early", r"\d+ passed, .*\n", "", "did not run to its end")]:
        if tree["output"] and (check.processor.exact or "deep" not in what):
            yield what, {**tree, "output": re.sub(old, new, tree["output"])}, why
