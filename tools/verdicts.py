#!/usr/bin/env python3
"""An independent model of the checker, written from the rules in docs/rules.md and the instruction table, for expected values.

`tools/verdicts.py pairs`, `rows`, `words` and `entries` print tables of crates/conf_verify/src/tests.rt: for each two of the pieces below,
one behind the other, the rule that is told and the place in the code; for each row of the instruction table a code that is
accepted and one that is refused; what is told where a byte of a word of a code with calls is changed, 0 for acceptance; and what is
told of several entries. `tools/verdicts.py CODE [ENTRY..]` prints the verdict of a code in hexadecimal, with these entries, or one at 8.
"""
import sys

PREFIX = bytes.fromhex("a1a2a3a4a5a6")
BASE = 0x10000
RAX, RCX, RDX, RSP, RSI, RDI, FLAGS = 0, 1, 2, 4, 6, 7, 16
GATES = [0x0E, 0x0F, 0x0C, 0x0C, 0x0C, 0x0C, 0x1F, 0x0F, 0x0E, 0x0E, 0x0E, 0x0E, 0x00]


def word(byte, kind):
    return bytes([byte, kind]) + PREFIX


def check(word_bytes, last):
    inverse = bytes(255 - b for b in word_bytes)
    tail = "49f7d3 674d3b9a00000000 0f8402000000 0f0b 4981c208000000 41ff"
    return bytes.fromhex("49bb") + inverse + bytes.fromhex(tail) + bytes([last])


def return_unit(bit):
    return bytes.fromhex("6467448b942400000000 4881c408000000") + check(word(bit, 0x22), 0xE2)


def call_unit(register, bits):
    first = bytes([0x41 + 4 * (register // 8), 0x89, 0xC2 + 8 * (register % 8)])
    return first + check(word(bits, 0x11), 0xD2)


def signed(b):
    return int.from_bytes(b, "little", signed=True)


def access(code, at, registers, opcode, size):
    """A memory operand behind an opcode: its base, the register beside it, and the whole length, or None."""
    if at >= len(code) or code[at] // 64 != 2:
        return None
    base = code[at] % 8 + 8 * (registers & 1)
    other = code[at] // 8 % 8 + 2 * (registers & 4)
    at += 1
    if base % 8 == 4:
        if code[at:at + 1] != b"\x24":
            return None
        at += 1
    return (base, other, at + 4) if at + 4 <= len(code) else None


def decode(code, at):
    """A row of the table as (name, operands, length), or None."""
    c = code[at:]

    def two(i):
        return (c[i] // 8 % 8 + 2 * (rex & 4), c[i] % 8 + 8 * (rex & 1)) if len(c) > i and c[i] // 64 == 3 else None

    if c[:2] == b"\x0f\x0b":
        return ("ud2", (), 2)
    if c[:1] == b"\x90":
        return ("nop", (), 1)
    if c[:1] in (b"\xe8", b"\xe9") and len(c) >= 5:
        return ("call" if c[0] == 0xE8 else "jmp", (signed(c[1:5]),), 5)
    if c[:1] == b"\x0f" and len(c) >= 6 and c[1] // 16 == 8 and c[1] % 16 not in (10, 11):
        return ("jcc", (signed(c[2:6]),), 6)
    if c[:1] in (b"\x64", b"\x65") and len(c) > 3 and c[1] == 0x67 and c[2] // 16 == 4 and not c[2] & 2:
        seg, rex, w = c[0], c[2], c[2] // 8 % 2
        if c[3] == 0x0F:
            m = access(code, at + 5, rex, 0, 1) if w and c[4] in (0xB6, 0xBE) else None
            return ("load", (seg, m[0], m[1]), m[2] - at) if m else None
        m = access(code, at + 4, rex, 0, 1)
        if m and (c[3] == 0x8B or (c[3] == 0x63 and w)):
            return ("load", (seg, m[0], m[1]), m[2] - at)
        if m and (c[3] == 0x89 or (c[3] == 0x88 and not w)):
            return ("store", (seg, m[0], m[1]), m[2] - at)
        return None
    if len(c) < 2 or c[0] // 16 != 4 or c[0] & 2:
        return None
    rex, w, op = c[0], c[0] // 8 % 2, c[1]
    if op // 8 == 0x17 and not rex & 4:
        size = 8 if w else 4
        return ("const", (op % 8 + 8 * (rex & 1),), 2 + size) if len(c) >= 2 + size else None
    if c[:2] == b"\x48\x99":
        return ("cqo", (), 2)
    if op == 0x89 and two(2):
        return ("mov", two(2), 3)
    if not w:
        if op == 0x0F and len(c) > 3 and c[2] // 16 == 9 and c[2] % 16 not in (10, 11) and two(3) and two(3)[0] == 0:
            return ("setcc", (two(3)[1],), 4)
        return None
    if op in (0x01, 0x09, 0x21, 0x29, 0x31, 0x39) and two(2):
        return ("cmp" if op == 0x39 else "alu", two(2), 3)
    if op == 0x85 and two(2):
        return ("test", two(2), 3)
    if op == 0xF7 and two(2) and two(2)[0] in (2, 3, 7):
        return ({2: "not", 3: "neg", 7: "idiv"}[two(2)[0]], (two(2)[1],), 3)
    if op == 0xC1 and len(c) > 3 and two(2) and two(2)[0] in (4, 5, 7) and 1 <= c[3] <= 63:
        return ("shiftimm", (two(2)[1],), 4)
    if op == 0xD3 and two(2) and two(2)[0] in (4, 5, 7):
        return ("shiftcl", (two(2)[1],), 3)
    if op == 0x63 and two(2):
        return ("mov", two(2)[::-1], 3)
    if op == 0xC7 and two(2) and two(2)[0] == 0 and len(c) >= 7:
        return ("const", (two(2)[1],), 7)
    if op == 0x81 and two(2) and two(2)[0] in (0, 1, 4, 5, 6, 7) and len(c) >= 7:
        return ("aluimm", (two(2)[1],), 7)
    if op == 0x0F and len(c) > 3 and two(3):
        if c[2] == 0xAF:
            return ("imul", two(3)[::-1], 4)
        if c[2] in (0xB6, 0xBE):
            return ("mov", two(3)[::-1], 4)
        if c[2] // 16 == 4 and c[2] % 16 not in (10, 11):
            return ("cmov", two(3)[::-1], 4)
    return None


def item_at(code, at):
    c = code[at:]
    if len(c) >= 8 and c[2:8] == PREFIX and ((c[1] == 0x11 and c[0] < 32) or (c[1] == 0x22 and c[0] < 2)):
        return ("callword" if c[1] == 0x11 else "retword", c[0], 8)
    for bit in (0, 1):
        if c[:56] == return_unit(bit):
            return ("return-unit", bit, 56)
    if len(c) >= 42:
        for register in range(16):
            for bits in range(32):
                if c[:42] == call_unit(register, bits):
                    return ("call-unit", (register, bits), 42)
    found = decode(code, at)
    return found and (found[0], found[1], found[2])


def left(kind, x, l):
    """What may be private behind an item, as a set."""
    out = set(l)

    def become(name, private):
        (out.add if private else out.discard)(name)

    if kind == "mov":
        become(x[1], x[0] in l)
    elif kind in ("alu", "cmp", "test"):
        private = x[0] in l or x[1] in l
        become(FLAGS, private)
        if kind == "alu":
            become(x[1], private)
    elif kind == "imul":
        become(FLAGS, True)
        become(x[1], x[0] in l or x[1] in l)
    elif kind in ("neg", "aluimm"):
        become(FLAGS, x[0] in l)
    elif kind == "idiv":
        private = RAX in l or RDX in l or x[0] in l
        for name, b in ((FLAGS, True), (RAX, private), (RDX, private)):
            become(name, b)
    elif kind == "cqo":
        become(RDX, RAX in l)
    elif kind == "shiftimm":
        become(FLAGS, True)
    elif kind == "shiftcl":
        become(FLAGS, True)
        become(x[0], x[0] in l or RCX in l)
    elif kind == "setcc":
        become(x[0], x[0] in l or FLAGS in l)
    elif kind == "cmov":
        become(x[1], x[1] in l or x[0] in l or FLAGS in l)
    elif kind == "const":
        become(x[0], False)
    elif kind == "load":
        become(x[2], x[0] == 0x65)
    return out


def verdict(code, entries=(8,)):
    """The rule that is told and its flat address, or None."""
    items, at = [], 0
    while at < len(code):
        found = item_at(code, at)
        if not found:
            return (2, BASE + at)
        items.append((at,) + found)
        at += found[2]
    places = {it[0]: i for i, it in enumerate(items)}
    behind = {it[0] + it[3]: it for it in items}
    procedure, count = [], 0
    for it in items:
        count += it[1] == "callword"
        procedure.append(count)
    words = ("callword", "retword")
    broken = []

    def breaks(rule, place):
        broken.append((rule, BASE + place))

    def callee(it):
        if it[1] == "call-unit":
            return it[2][1]
        if it[1] != "call":
            return None
        target = (BASE + it[0] + it[3] + it[2][0]) % 2 ** 64
        before = behind.get(target - BASE)
        if before and before[1] == "callword":
            return before[2]
        if target >= 0x1000 and (target - 0x1000) % 16 == 0 and (target - 0x1000) // 16 < 13:
            return GATES[(target - 0x1000) // 16]
        return None

    def target_of(it):
        if it[1] not in ("jmp", "jcc"):
            return None
        return (BASE + it[0] + it[3] + it[2][0]) % 2 ** 64 - BASE

    for i, it in enumerate(items):
        at, kind, x, length = it
        last = i + 1 == len(items) or items[i + 1][1] == "callword"
        if (i == 0 and kind != "callword") or (last and kind not in ("jmp", "ud2", "return-unit")):
            breaks(3, at)
        if kind in ("call", "call-unit"):
            bits = callee(it)
            follower = items[i + 1] if i + 1 < len(items) else (0, "", 0, 0)
            if follower[1] != "retword" or (bits is not None and follower[2] != bits >> 4):
                breaks(5, at)
            if kind == "call" and bits is None:
                breaks(7, at)
        if kind == "retword" and (i == 0 or items[i - 1][1] not in ("call", "call-unit")):
            breaks(5, at)
        target = target_of(it)
        if target is not None:
            j = places.get(target)
            if j is None or items[j][1] in words or procedure[j] != procedure[i]:
                breaks(6, at)
        if kind == "return-unit":
            own = [k[2] for k in items[:i + 1] if k[1] == "callword"]
            if own and own[-1] >> 4 != x:
                breaks(8, at)
    for at in range(len(code)):
        if code[at:at + 6] == PREFIX and items[places[at - 2]][1] not in words if at - 2 in places else code[at:at + 6] == PREFIX:
            breaks(4, at)
    for entry in entries:
        if behind.get(entry, (0, ""))[1] != "callword":
            breaks(9, entry)
    if broken:
        return min(broken)

    labels = [set() for _ in items]
    work = True
    while work:
        work = False
        for i, it in enumerate(items):
            at, kind, x, length = it
            flows = []
            if kind == "callword":
                arguments = {n for b, n in enumerate((RDI, RSI, RDX, RCX)) if x >> b & 1}
                flows.append((i + 1, arguments | (set(range(17)) - {RSP, RDI, RSI, RDX, RCX})))
            elif kind == "retword":
                flows.append((i + 1, set(range(17)) - {RSP} - (set() if x else {RAX})))
            elif kind not in ("call", "call-unit", "return-unit", "ud2"):
                out = left(kind, x, labels[i])
                if kind != "jmp":
                    flows.append((i + 1, out))
                if target_of(it) is not None:
                    flows.append((places[target_of(it)], out))
            for j, out in flows:
                if not out <= labels[j]:
                    labels[j] |= out
                    work = True
    for i, it in enumerate(items):
        at, kind, x, length = it
        l = labels[i]
        if kind in ("load", "store") and x[1] in l or kind == "return-unit" and RSP in l or kind == "call-unit" and x[0] in l:
            breaks(10, at)
        if kind == "store" and x[0] == 0x64 and x[2] in l:
            breaks(11, at)
        if kind == "jcc" and FLAGS in l:
            breaks(12, at)
        if kind == "idiv" and (RAX in l or RDX in l or x[0] in l):
            breaks(13, at)
        if kind not in words + ("return-unit", "call-unit") and RSP in left(kind, x, l):
            breaks(14, at)
        bits = callee(it)
        if bits is not None and any(n in l and not bits >> b & 1 for b, n in enumerate((RDI, RSI, RDX, RCX))):
            breaks(15, at)
        if kind == "return-unit" and x == 0 and RAX in l:
            breaks(16, at)
    return min(((at, rule) for rule, at in broken), default=None) and min((at, rule) for rule, at in broken)[::-1]


W, Z = word(0x0F, 0x11), word(0, 0x22)
UD2 = bytes.fromhex("0f0b")

# pieces that break one rule each behind a call word with bits 0f; rule 9 is broken by an entry of 4 beside a NOP
PIECES = [
    (2, bytes.fromhex("06")),
    (3, bytes.fromhex("90") + W),
    (4, bytes.fromhex("49b8a1a2a3a4a5a60000")),
    (5, Z),
    (6, bytes.fromhex("e9fcffffff")),
    (7, bytes.fromhex("e800000000") + Z),
    (8, UD2 + W + return_unit(1) + W),
    (9, bytes.fromhex("90")),
    (10, bytes.fromhex("6467488b9800000000")),
    (11, bytes.fromhex("41b800100000 646749898000000000")),
    (12, bytes.fromhex("0f8400000000")),
    (13, bytes.fromhex("48f7f9")),
    (14, bytes.fromhex("4889c4")),
    (15, bytes.fromhex("e812000000") + Z + UD2 + word(0, 0x11) + UD2 + W),
    (16, UD2 + W + return_unit(0) + W),
]


def pairs():
    for rule, piece in PIECES:
        print(f"// V{rule}: {piece.hex()}")
    for first, a in PIECES:
        row = []
        for second, b in PIECES:
            told = verdict(W + a + b + UD2, (4,) if 9 in (first, second) else (8,))
            row.append(f"({told[0]}, {told[1] - BASE})")
        print("[" + ", ".join(row) + "],")


CONST8, CONST_RAX, JCC = "41b800100000", "40b807000000", "0f8400000000"
RETURN_PUBLIC = CONST_RAX + return_unit(0).hex()
TO_STACK = "4889c4"  # mov rsp, rax

# for each row of the instruction table what is accepted behind a call word and before UD2, and what is refused there; a refused
# code that ends with a point has no UD2 behind it
ROWS = [
    ("MOV", "4889c1", "4889c4"),
    ("MOV of 32 bits", "4089c1", "4089c4"),
    ("ADD", "4801c1", "4801c4"),
    ("OR", "4809c1", "4809c4"),
    ("AND", "4821c1", "4821c4"),
    ("SUB", "4829c1", "4829c4"),
    ("XOR", "4831c1", "4831c4"),
    ("CMP", "4839c1", "4839c1" + JCC),
    ("TEST", "4885c1", "4885c1" + JCC),
    ("IMUL", "480fafc1", "480fafe1"),
    ("NOT", "48f7d0", "48f7d0" + TO_STACK),
    ("NEG", "48f7d8", "48f7d8" + JCC),
    ("IDIV", CONST_RAX + "4899 40b902000000 48f7f9", "48f7f9"),
    ("CQO", "4899", CONST_RAX + "4899 4889d4 4889c8 4899 4889d4"),
    ("SHL", "48c1e003", "48c1e003" + JCC),
    ("SHR", "48c1e803", "48c1e803" + JCC),
    ("SAR", "48c1f803", "48c1f803" + JCC),
    ("SHL by CL", "48d3e0", "48d3e4"),
    ("SHR by CL", "48d3e8", "48d3ec"),
    ("SAR by CL", "48d3f8", "48d3fc"),
    ("MOVSXD", "4863c1", "4863e1"),
    ("MOVZX", "480fb6c1", "480fb6e1"),
    ("MOVSX", "480fbec1", "480fbee1"),
    ("SETcc", "400f94c0", "400f94c4"),
    ("CMOVcc", "480f44c1", "480f44e1"),
    ("MOV of a constant of 32 bits", "40b800100000", "40b800100000."),
    ("MOV of a constant of 64 bits", "49b8a1a2a3a4a5000000", "49b8a1a2a3a4a5a60000"),
    ("MOV of an extended constant", "48c7c0ffffffff", "48c7c0ffffffff."),
    ("ADD of a constant", "4881c001000000", "4881c001000000" + JCC),
    ("OR of a constant", "4881c801000000", "4881c801000000" + JCC),
    ("AND of a constant", "4881e001000000", "4881e001000000" + JCC),
    ("SUB of a constant", "4881e801000000", "4881e801000000" + JCC),
    ("XOR of a constant", "4881f001000000", "4881f001000000" + JCC),
    ("CMP with a constant", "4881f801000000", "4881f801000000" + JCC),
    ("load of 8 bytes", CONST8 + "6467498b8000000000", "6467488b8000000000"),
    ("load of 4 bytes", CONST8 + "6467418b8000000000", "6467408b8000000000"),
    ("MOVZX of a byte", CONST8 + "6567490fb68000000000", "6567480fb68000000000"),
    ("MOVSX of a byte", CONST8 + "6567490fbe8000000000", "6567480fbe8000000000"),
    ("MOVSXD of 4 bytes", CONST8 + "646749638000000000", "646748638000000000"),
    ("store of 8 bytes", CONST8 + "656749898000000000", CONST8 + "646749898000000000"),
    ("store of 4 bytes", CONST8 + "656741898000000000", CONST8 + "646741898000000000"),
    ("store of a byte", CONST8 + "656741888000000000", CONST8 + "646741888000000000"),
    ("the comparison of a unit", RETURN_PUBLIC, "674d3b9a00000000"),
    ("the jump of a return unit", RETURN_PUBLIC, "41ffe2"),
    ("the call of a call unit", "40b842000100" + call_unit(0, 0x0F).hex() + Z.hex(), "41ffd2"),
    ("CALL", "e812000000" + Z.hex() + UD2.hex() + W.hex(), "e803000000" + Z.hex()),
    ("JMP", "e900000000", "e903000000"),
    ("Jcc", CONST_RAX + "4839c0" + JCC, JCC),
    ("UD2", "0f0b", "0f0b" + W.hex() + "."),
    ("NOP", "90", "90."),
]


def literal(code):
    return 'b"' + "".join(f"\\x{b:02x}" for b in code) + '"'


def rows():
    for name, good, bad in ROWS:
        accepted = W + bytes.fromhex(good) + UD2
        refused = W + bytes.fromhex(bad.rstrip(".")) + (b"" if bad.endswith(".") else UD2)
        assert verdict(accepted) is None, (name, verdict(accepted))
        rule, at = verdict(refused)
        print(f"// {name}\n({literal(accepted)}, {literal(refused)}, Rule::V{rule}, {at:#x}),")


# two calls, and a procedure that overwrites its return address
CALLS = (W + bytes.fromhex("e822000000") + Z + UD2 + bytes.fromhex("e813000000") + Z + bytes.fromhex("90") + UD2 + W
         + bytes.fromhex("40b81c000100 64674889842400000000") + return_unit(0))


def words():
    for change in (1, 0x33):
        for at in (0, 13, 28, 39):
            row = []
            for place in range(at, at + 8):
                code = bytearray(CALLS)
                code[place] ^= change
                rule, told = verdict(bytes(code)) or (0, BASE)
                row.append(f"({rule}, {told - BASE})")
            print("[" + ", ".join(row) + "],")


# entries of a code of two procedures, which begin at 8 and at 18
TWO = W + UD2 + W + UD2
ENTRIES = [
    (8,), (18,), (8, 18), (18, 8), (8, 8), (8, 4), (4, 8), (20, 4), (4, 20), (10, 10), (8, 20, 10), (18, 2 ** 32 - 1),
    (8, 18, 8, 18, 8, 18, 8, 18), (8, 18, 8, 18, 8, 18, 8, 17), (7, 6, 5, 4, 3, 2, 1, 0), (19, 8, 9, 18, 7, 8, 11, 18),
]


def several():
    for entries in ENTRIES:
        told = verdict(TWO, entries)
        rule, at = (f"Some(Rule::V{told[0]})", f"{told[1]:#x}") if told else ("None", "0")
        print(f"(&{list(entries)}, {rule}, {at}),")


if __name__ == "__main__":
    tables = {"pairs": pairs, "rows": rows, "words": words, "entries": several}
    if len(sys.argv) == 2 and sys.argv[1] in tables:
        tables[sys.argv[1]]()
    else:
        told = verdict(bytes.fromhex(sys.argv[1]), [int(word, 0) for word in sys.argv[2:]] or [8])
        print("accepted" if told is None else f"refused V{told[0]} at {told[1]:#x}")
