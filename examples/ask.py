"""Writes the report program's input: ask.py CELL RING_NUMBER ALLOWANCE RING_FILE LINE_FILE [SILENCE..], a silence as CELL:RING_NUMBER:START:CEILING."""
import sys

def number(value, length):
    if int(value) not in range(256**length):
        raise ValueError(f"{value} does not fit into {length} bytes")
    return int(value).to_bytes(length, "big")

def field(tag, *parts):
    value = b"".join(parts)
    return bytes([tag]) + number(len(value), 2) + value

try:
    cell, ring_number, allowance, ring, line, *silences = sys.argv[1:]
    asked = [field(0x34, number(cell, 4)), field(0x35, number(ring_number, 2)), field(0x33, number(allowance, 1))]
    asked += [field(0x31, open(ring, "rb").read()), field(0x32, open(line, "rb").read())]
    records = (silence.split(":") for silence in silences)
    book = sorted(field(0x22, number(c, 4), number(r, 2), number(s, 4), number(ceiling, 2)) for c, r, s, ceiling in records)
except (ValueError, OSError) as error:
    sys.exit(f"ask.py: {error}\n{__doc__}")
sys.stdout.buffer.write(b"".join(asked + book))
