"""The real stack that a call of the proved library takes, by tools/stack-used.c."""
import os

from callgrind import said

ROOT = os.path.dirname(os.path.dirname(os.path.abspath(__file__)))
INCLUDE = os.path.join(ROOT, "include")
ARCHIVE = os.path.join(ROOT, "target", "staticlib", "libpaugmeln.a")


def compiled(folder):
    source = os.path.join(ROOT, "tools", "stack-used.c")
    program = os.path.join(folder, "stack-used")
    said(["cc", "-O2", "-I", INCLUDE, source, ARCHIVE, "-lpthread", "-o", program])
    return program


def print_stack(program, call, paths, levels):
    """Prints the stack that a call takes for each file, which goes so many levels deep; gives the most."""
    print("| file | answer | stack, bytes | a level |")
    print("|---|---|---|---|")
    most = 0
    for path in paths:
        with open(path, "rb") as text:
            used, number = map(int, said([program, call], stdin=text).split())
        name = os.path.basename(path).removesuffix(".rules")
        print(f"| {name} | {number} | {used:,} | {used / levels:.0f} |", flush=True)
        most = max(most, used)
    return most
