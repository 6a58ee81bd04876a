"""A C source of two sizes: megabytes a second of lexing, of lexing and parsing, and of other compilers' front ends."""

import os
import shutil
import subprocess
import sys
import time

HEAD = """struct node { long key; struct node *next; char name[16]; };
long total = 0;
long scale(long a, long b);
"""

BODY = """
/* Function %(n)d: most statements and operators. */
long f%(n)d(long a, struct node *list, char *text) {
    long i, sum = 0x%(n)x;
    for (i = 0; i < a && i <= 100; i = i + 1) {
        sum = sum + (i * 3 - a / 7) %% 11;
        if (sum > 1000 || sum == a) sum = sum >> 1; else sum = sum ^ (a << 2);
    }
    while (list != 0) {
        list->key = list->key + text[i & 7]; // a member and an index
        if (list->key < 0) break;
        list = list->next;
    }
    do { sum = ~sum | (long)text[0]; } while (sum < 0 && !(sum >= a));
    total = total + scale(sum, -a);
    return sum ? sum + 'x' : (long)sizeof(struct node);
}
"""


def source(size):
    """Whole functions, up to the size, and the number of items."""
    parts, length, count = [HEAD], len(HEAD), 0
    while True:
        part = BODY % {"n": count}
        if length + len(part) > size:
            return "".join(parts), 3 + count
        parts.append(part)
        length += len(part)
        count += 1


def least(command):
    """The least time of five runs."""
    times = []
    for _ in range(5):
        start = time.perf_counter()
        subprocess.run(command, check=True, stdout=subprocess.DEVNULL)
        times.append(time.perf_counter() - start)
    return min(times)


def ours(program, path, items):
    """The least seconds of lexing and of both, of five runs."""
    lexing, both = [], []
    for _ in range(5):
        told = subprocess.run([program, path], check=True, capture_output=True, text=True).stdout
        words = told.split()
        if words[:1] != [str(items)] or len(words) != 3:
            sys.exit(f"{path}: {items} items are wanted, and the program says: {told}")
        lexing.append(int(words[1]) / 1e6)
        both.append(int(words[2]) / 1e6)
    return min(lexing), min(both)


def main():
    program, folder = sys.argv[1:]
    rows = []
    for size in (1 << 20, 8 << 20):
        text, items = source(size)
        path = os.path.join(folder, f"source{size >> 20}.c")
        with open(path, "w", encoding="ascii") as out:
            out.write(text)
        lexing, both = ours(program, path, items)
        row = {"lexing": lexing, "lexing and parsing": both, "the whole program": least([program, path])}
        if shutil.which("gcc"):
            row["`gcc -fsyntax-only`"] = least(["gcc", "-w", "-fsyntax-only", path])
        if shutil.which("tcc"):
            row["`tcc -c`"] = least(["tcc", "-w", "-c", "-o", os.devnull, path])
        rows.append((len(text), row))
    (small, first), (large, second) = rows
    print(f"| What | {small:,} bytes, MB/s | {large:,} bytes, MB/s | Seconds, large to small |\n|---|---|---|---|")
    for name in first:
        speeds = f"{small / first[name] / 1e6:.1f} | {large / second[name] / 1e6:.1f}"
        print(f"| {name} | {speeds} | {second[name] / first[name]:.1f} times |")


main()
