"""Images of several shapes: seconds of `verify` and of `objdump -D`; steps a second of `run` over one core and eight, of code that calls
gates, and of an emulator."""

import os
import shutil
import struct
import subprocess
import sys
import tempfile
import time

PREFIX = bytes.fromhex("a1a2a3a4a5a6")
CALL_WORD = b"\x0f\x11" + PREFIX
RETURN_WORD = b"\x00\x22" + PREFIX
UD2 = b"\x0f\x0b"
NOP = b"\x90"
RAX_7 = bytes.fromhex("40b807000000")
CHECK = bytes.fromhex("5e5d5c5b5a59 49f7d3 674d3b9a00000000 0f8402000000 0f0b 4981c208000000 41ff")
RETURN_UNIT = bytes.fromhex("6467448b942400000000 4881c408000000 49bbffdd") + CHECK + b"\xe2"
CALL_UNIT = bytes.fromhex("4189c2 49bbf0ee") + CHECK + b"\xd2"


def repeated(piece, size):
    return CALL_WORD + piece * ((size - len(CALL_WORD) - len(UD2)) // len(piece)) + UD2


def straight(size):
    # mov r8, 4096; a load and a store of 8 bytes in the private segment; add rax, rcx; nop
    return repeated(bytes.fromhex("41b800100000 6567498b8000000000 656749898000000000 4801c8 90"), size)


def rows(size):
    """Each plain row of the instruction table once, over public registers, again and again."""
    return repeated(ROWS, size)


def items(size):
    """Every kind of item: procedures of all plain rows, with a call unit, a direct call and their return words, and a return unit."""
    body = RAX_7 + CALL_UNIT + RETURN_WORD + ROWS
    call = b"\xe8" + struct.pack("<i", -len(body) - 5) + RETURN_WORD
    piece = CALL_WORD + body + call + RAX_7 + RETURN_UNIT
    return piece * ((size - len(CALL_WORD) - len(UD2)) // len(piece)) + CALL_WORD + UD2


def all_rows():
    public = "".join(f"{0x40 + r // 8:02x}{0xB8 + r % 8:02x}00100000" for r in range(16) if r != 4)
    table = """
        4889f8 4589f8 4801c8 4809da 4821ee 4829fe 4d31c8 4d39da 4d85ec 4d0faff7 48f7d0 48f7d9 48f7fb 4899
        48c1e001 49c1ec3f 48c1fb0a 48d3e0 49d3ed 48d3fd 4863c1 480fb6d3 480fbef7
        4981ff00000000 400f94c0 4d0f4ec1 40b800000000 48b90010000000000000 48c7c307000000
        4881c008000000 4881c9ffffffff 4881e2f0ffffff 4881ee08000000 4981f10a000000
        6467498b80fdffffff 6467408b8c2400000000 6467490fb69424ffffff7f 64674c0fbead00000080 64674c63b010000000
        646748898708000000 646745899affffffff 646741889964000000 0f8d00000000 e900000000 90
    """
    return bytes.fromhex(public + table)


ROWS = all_rows()


def jumps(size):
    # a jump over the next one, and back
    return repeated(bytes.fromhex("e905000000 e9f6ffffff"), size)


def units(size):
    return repeated(RAX_7 + CALL_UNIT + RETURN_WORD, size)


def calls(size):
    """Calls of one procedure at the front."""
    code = bytearray(CALL_WORD + RAX_7 + RETURN_UNIT + CALL_WORD)
    while len(code) < size - 15:
        code += b"\xe8" + struct.pack("<i", len(CALL_WORD) - len(code) - 5) + RETURN_WORD
    return bytes(code + UD2)


def turns(size):
    """A loop of nops whose every turn makes one more register private: the shape that asks the labelling for most steps."""
    registers = [0, 1, 2, 3, 5, 6, 7, 9, 10, 11, 12, 13, 14, 15]
    public = b"".join(bytes([0x40 + r // 8, 0xB8 + r % 8, 0, 16, 0, 0]) for r in registers + [8])
    moves = b"".join(
        bytes([0x48 + r // 8 * 4 + s // 8, 0x89, 0xC0 + r % 8 * 8 + s % 8]) for r, s in zip(registers[-2::-1], registers[:0:-1])
    )
    load = bytes.fromhex("6567498b8000000000")
    start = CALL_WORD + public
    body = moves + load + NOP * (size - len(start) - len(moves) - len(load) - 5)
    return start + body + b"\xe9" + struct.pack("<i", -len(body) - 5)


def calls_gate(number, bit):
    # a loop: mov edi, 4096; mov esi, 1024; a call of the gate; and back
    body = bytes.fromhex("40bf00100000 40be00040000")
    body += b"\xe8" + struct.pack("<i", 0x1000 + 16 * number - (0x10000 + len(CALL_WORD + body) + 5)) + bytes([bit, 0x22]) + PREFIX
    return CALL_WORD + body + b"\xe9" + struct.pack("<i", -len(body) - 5)


def image(code, cores=1):
    head = b"CFVI" + bytes([1, cores, 0, 0]) + PREFIX + bytes(2)
    return head + struct.pack(f"<{6 + cores}I", 65536, 4096, len(code), 0, 0, 0, *[8] * cores) + code


def once(command, status):
    """Seconds, and the peak of memory in MB."""
    silence = [(os.POSIX_SPAWN_OPEN, stream, os.devnull, os.O_WRONLY, 0) for stream in (1, 2)]
    start = time.perf_counter()
    child = os.posix_spawn(command[0], command, {}, file_actions=silence)
    _, code, usage = os.wait4(child, 0)
    spent = time.perf_counter() - start
    if os.waitstatus_to_exitcode(code) != status:
        sys.exit(f"{command}: status {os.waitstatus_to_exitcode(code)}")
    return spent, usage.ru_maxrss / 1e3


def best(command, status=0):
    """The least time of the runs that a second has room for, of three at least, and their peak of memory."""
    runs = []
    while len(runs) < 3 or sum(spent for spent, _ in runs) < 1:
        runs.append(once(command, status))
    return min(spent for spent, _ in runs), max(peak for _, peak in runs)


def written(folder, name, data):
    path = os.path.join(folder, name)
    with open(path, "wb") as out:
        out.write(data)
    return path


def time_verify(program, folder):
    objdump = shutil.which("objdump")
    print("| Code | Bytes | `verify` MB/s | `objdump` MB/s | Ratio | Peak MB |\n|---|---|---|---|---|---|")
    for shape in (items, rows, straight, jumps, calls, units, turns):
        times = []
        for size in (65536, 1048576, 4194304):
            code = shape(size)
            ours, peak = best([program, "verify", written(folder, "image", image(code))])
            theirs, _ = best([objdump, "-D", "-b", "binary", "-m", "i386:x86-64", written(folder, "code", code)])
            times.append(ours)
            speeds = f"{len(code) / ours / 1e6:.1f} | {len(code) / theirs / 1e6:.1f} | {theirs / ours:.1f}"
            print(f"| {shape.__name__} | {len(code):,} | {speeds} | {peak:.0f} |")
        print(f"| {shape.__name__} | 4 MiB to 64 KiB | {times[2] / times[0]:.0f} times | | | |")


def time_run(program, folder):
    # mov ecx, 1; then a loop: mov r8, 4096; a load of 8 bytes; add rax, rcx; a store; nop; and back
    body = bytes.fromhex("41b800100000 6567498b8000000000 4801c8 656749898000000000 90")
    code = CALL_WORD + bytes.fromhex("40b901000000") + body + b"\xe9" + struct.pack("<i", -len(body) - 5)
    shapes = [
        ("a loop", image(code)),
        ("the loop on eight cores by turns", image(code, 8)),
        ("calls of priv_get", image(calls_gate(6, 1))),
        ("calls of priv_in with 1,024 bytes", image(calls_gate(4, 0))),
        ("calls of pub_free of no block", image(calls_gate(10, 0))),
    ]
    print("\n| Code | `run`, million steps a second |\n|---|---|")
    for name, data in shapes:
        spent, _ = best([program, "run", written(folder, "loop", data), "30000000"], status=6)
        print(f"| {name} | {30 / spent:.1f} |")
    if shutil.which("qemu-x86_64") and shutil.which("gcc"):
        source, loop = os.path.join(os.path.dirname(__file__), "loop.c"), os.path.join(folder, "loop.exe")
        subprocess.run(["gcc", "-O2", "-static", "-o", loop, source], check=True)
        told = subprocess.run(["qemu-x86_64", loop], check=True, capture_output=True, text=True).stdout.strip()
        print(f"`qemu-x86_64` on the same loop: {told} million steps a second")
    else:
        print("`qemu-x86_64` and gcc aren't both here, so the loop isn't timed under an emulator")


def main():
    with tempfile.TemporaryDirectory() as folder:
        time_verify(sys.argv[1], folder)
        time_run(sys.argv[1], folder)


main()
