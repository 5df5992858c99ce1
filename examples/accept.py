"""Tells a whole report from a refusal and from a cut output: accept.py CELL RING_NUMBER ALLOWANCE RING_FILE < OUTPUT. Exit status 0 only if it is whole."""
import re, sys

try:
    cell, ring_number, allowance, ring = sys.argv[1:]
    first = b"cell %d ring %d edges %d allow %d\n" % (int(cell), int(ring_number), len(open(ring, "rb").read()), int(allowance))
except (ValueError, OSError) as error:
    sys.exit(f"accept.py: {error}\n{__doc__}")
output = sys.stdin.buffer.read()
whole = re.fullmatch(re.escape(first) + rb"((?:\d+ \d+ \d+ \d+\n)*)found (\d+) hidden (\d+) looks \d+\n", output)
if not whole or whole[1].count(b"\n") != int(whole[2]) - int(whole[3]):
    sys.exit(f"not a whole report of this ring: it ends {output[-60:]!r}")
print(f"whole: found {int(whole[2])}, hidden {int(whole[3])}")
