#!/usr/bin/env python3
"""How much stack each C function of libtapes.a can take at most, read off its machine code: stack.py ARCHIVE [OBJDUMP].

Every way through each function is walked, with how far the stack pointer is below its place on entry; a call adds its return
address and what the callee can take. Of the caller's own call the return address is counted, and the arguments that are passed on
the stack: all but six (rust/src/ffi.rs has them). Nothing in the archive calls itself, directly or by way of others; if something
did, or if an instruction moved the stack pointer in a way that is not known here, the script would stop. `memcpy` and `memset` are
the C library's: only their return address is counted."""
import pathlib
import re
import shutil
import subprocess
import sys

DECLARED = pathlib.Path(__file__).parent.parent / "rust/src/ffi.rs"
OUTSIDE = {"memcpy", "memset"}
JUMPS = re.compile(r"j[a-z]+$")


class Function:
    def __init__(self):
        self.code = {}  # address: (operation, operands, what a relocation names)
        self.order = []


def functions(archive, objdump):
    """The functions of the archive, by name."""
    listing = subprocess.run([objdump, "-dr", "--no-show-raw-insn", "-M", "intel", archive], capture_output=True, text=True, check=True).stdout
    found, here = {}, None
    for line in listing.splitlines():
        if match := re.match(r"[0-9a-f]+ <(.*)>:$", line):
            here = found[match[1]] = Function()
        elif match := re.match(r"\s+([0-9a-f]+):\s+(\S+)\s*(.*)$", line):
            if match[2].startswith("R_X86_64"):
                address = here.order[-1]
                operation, operands, _ = here.code[address]
                here.code[address] = (operation, operands, match[3])
            else:
                address = int(match[1], 16)
                here.code[address] = (match[2], match[3], None)
                here.order.append(address)
    return found


def named(relocation):
    """The function that a relocation names."""
    return re.sub(r"[-+]0x[0-9a-f]+$", "", relocation).removeprefix(".text.")


def moved(operation, operands):
    """How far an instruction moves the stack pointer down."""
    if operation == "push":
        return 8
    if operation == "pop" and operands != "rsp":
        return -8
    match = re.match(r"rsp,(0x[0-9a-f]+|\[rsp([-+]0x[0-9a-f]+)\])$", operands)
    if match and operation == "sub":
        amount = int(match[1], 16)
        return amount if amount < 1 << 63 else amount - (1 << 64)
    if match and operation == "add":
        amount = int(match[1], 16)
        return -(amount if amount < 1 << 63 else amount - (1 << 64))
    if match and operation == "lea":
        return -int(match[2], 16)
    others = operation in ("leave", "enter", "notrack", "bnd") or operation.startswith(("pushf", "popf"))
    if others or operands == "rsp" or (operation == "xchg" and "rsp" in operands.split(",")):
        sys.exit(f"this is not known here: {operation} {operands}")
    if operands.startswith("rsp,") and operation not in ("cmp", "test"):
        sys.exit(f"this moves the stack pointer in a way that is not known here: {operation} {operands}")
    return 0


def walk(function):
    """For each instruction that can be reached, how far down the stack pointer is before it."""
    depth, todo = {}, [(function.order[0], 0)]
    following = dict(zip(function.order, function.order[1:]))
    while todo:
        address, below = todo.pop()
        if address in depth:
            if depth[address] != below:
                sys.exit(f"two ways lead to {address:x} with the stack at two places")
            continue
        depth[address] = below
        operation, operands, relocation = function.code[address]
        after = below + moved(operation, operands)
        if operation == "ret":
            continue
        if JUMPS.match(operation):
            target = re.match(r"([0-9a-f]+) <", operands)
            if relocation is None and target is None:
                sys.exit(f"a jump to a place that is not known here: {operation} {operands}")
            if relocation is None:
                todo.append((int(target[1], 16), after))
            if operation == "jmp":
                continue
        if operation != "ud2":
            todo.append((following[address], after))
    return depth


def takes(name, all_functions, known, above=()):
    """The most stack that a function can take below its return address."""
    if name in OUTSIDE:
        return 0
    if name in above:
        sys.exit(f"{name} calls itself")
    if name in known:
        return known[name]
    function, most = all_functions[name], 0
    for address, below in walk(function).items():
        operation, operands, relocation = function.code[address]
        # bytes below the stack pointer that a function without calls may use
        for match in re.findall(r"\[rsp-(0x[0-9a-f]+)", operands):
            most = max(most, below + int(match, 16))
        most = max(most, below + moved(operation, operands))
        if relocation and operation == "call":
            most = max(most, below + 8 + takes(named(relocation), all_functions, known, (*above, name)))
        elif relocation and JUMPS.match(operation):
            most = max(most, below + takes(named(relocation), all_functions, known, (*above, name)))
        elif operation == "call":
            sys.exit(f"{name} calls what is not known here: {operands}")
    known[name] = most
    return most


def passed():
    """What a call of each function takes on the caller's side: the return address, and the arguments behind the sixth, in pairs."""
    counts = {name: words.count(":") for name, words in re.findall(r"pub fn (tapes_\w+)\(([^)]*)\)", DECLARED.read_text())}
    return {name: 8 + max(0, count - 6 + 1) // 2 * 16 for name, count in counts.items()}


def main():
    archive = sys.argv[1]
    # an Arm machine's own objdump can't read x86-64 code
    objdump = (sys.argv[2:] or [shutil.which("x86_64-linux-gnu-objdump") or "objdump"])[0]
    found, known = functions(archive, objdump), {}
    rows = [(before + takes(name, found, known), name) for name, before in passed().items()]
    for most, name in sorted(rows, reverse=True):
        print(f"{name},{most}")


main()
