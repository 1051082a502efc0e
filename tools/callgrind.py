"""Instructions by callgrind, of the proved library beside the Rust evaluator in the same program."""
import os
import re
import subprocess

# Else memset clears by one instruction that callgrind counts once a byte.
COUNTED_TRULY = dict(os.environ, GLIBC_TUNABLES="glibc.cpu.x86_rep_stosb_threshold=1000000000")

# A row of callgrind_annotate: count, percentage, source:function [object].
ROW = re.compile(r"^ *([\d,]+) +\([ \d.]+%\) +[^:]*:(\S+)", re.M)


def said(command, **more):
    return subprocess.run(command, check=True, capture_output=True, text=True, **more).stdout


def counted(command, folder, *options):
    """What a command says, and the instructions by function, those that it calls included."""
    out = os.path.join(folder, "counts")
    tool = ["valgrind", "--tool=callgrind", "--demangle=no", f"--callgrind-out-file={out}", *options]
    answer = said([*tool, *command], env=COUNTED_TRULY)
    lines = said(["callgrind_annotate", "--inclusive=yes", "--threshold=100", out])
    counts = {name: int(count.replace(",", "")) for count, name in reversed(ROW.findall(lines))}
    return answer.strip(), counts


def instructions(program, path, folder):
    """What the program says of a file, and what is counted inside the library and inside the Rust evaluator."""
    answer, counts = counted([program, path], folder)
    return answer, [counts[name] for name in ("counted_library", "counted_reference")]


def inside(name, command, folder):
    """What a command says, and the instructions by function while the function named runs."""
    return counted(command, folder, f"--toggle-collect={name}")
