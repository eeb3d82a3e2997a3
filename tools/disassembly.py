"""What an archive's machine code says, for tools/stack and tools/packed: its functions, and whom each of them calls."""
import re
import shutil
import subprocess
import sys
from collections import namedtuple

# a call's target stands in its relocation, or in the instruction where both are in one section
CALLED = r"R_(?:X86_64_(?:PLT32|PC32)|AARCH64_(?:CALL26|JUMP26))\s+(\S+)"
TOOLS = ("objdump", "llvm-objdump", "x86_64-linux-gnu-objdump", "aarch64-linux-gnu-objdump")

# A function's instructions, a line each, and whom it calls, by name.
Function = namedtuple("Function", "lines called")


def disassembly(archive):
    """The text of the archive's code with its relocations, and whether it is for x86-64."""
    for tool in TOOLS:
        run = subprocess.run([tool, "-dr", "--no-show-raw-insn", archive], capture_output=True, text=True) if shutil.which(tool) else None
        if run and run.returncode == 0 and re.search(r"^[0-9a-f]+ <", run.stdout, re.M):
            return run.stdout, "x86-64" in run.stdout or "x86_64" in run.stdout
    sys.exit(f"{archive}: no objdump reads it: install binutils or llvm")


def target(name):
    """The function that a relocation names, by itself or by its section; a constant is none."""
    name = re.sub(r"[-+]0x[0-9a-f]+$", "", name)
    return None if re.match(r"\.(LCPI|rodata|Lswitch|data)", name) else name.removeprefix(".text.")


def functions(text):
    """Each function of a disassembly, by its name."""
    every = {}
    for part in re.split(r"\n(?=[0-9a-f]+ <)", text):
        head = re.match(r"[0-9a-f]+ <([^>]+)>:", part)
        if not head:
            continue
        # the target that is shown in an instruction means nothing where a relocation follows it
        direct = re.sub(r"[^\n]*\n(?=\s*[0-9a-f]+:\s+R_)", "", part)
        called = {target(name) for name in re.findall(CALLED, part)} | set(re.findall(r"\t(?:callq?|jmpq?|bl|b)\s+[0-9a-fx]+ <([^>+]+)>", direct))
        again = {target(name) for name in re.findall(r"\t(?:callq?|bl)\s[^\n]*\n\s*[0-9a-f]+:\s+" + CALLED, part)}
        if head[1] not in again and not re.search(rf"\t(?:callq?|bl)\s+[0-9a-fx]+ <{re.escape(head[1])}>", direct):
            called.discard(head[1])
        every[head[1]] = Function(part.splitlines(), sorted(called - {None}))
    return every
