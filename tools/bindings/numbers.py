#!/usr/bin/env python3
"""Compares the numbers of croner.h, as a C compiler reads them, with those of the crate croner_c, of the Python package and of the Rust crate:
the bytes of the structs, the ends of a window, and the statuses. The last line is 'N passed, M failed'."""
import ctypes
import re
import subprocess
import sys
import tempfile
from pathlib import Path

TOP = Path(__file__).resolve().parent.parent.parent
STRUCTS = ("change", "clock", "fault", "line", "start")
STATUSES = ("OK", "REFUSED", "LIMIT", "OUT_OF_MEMORY", "OUTSIDE", "NOT_CALM", "BAD_ZONE", "TOO_SMALL", "BAD_ARGUMENT")
ENDS = ("FIRST_SECOND", "LAST_SECOND")
WIDTHS = {"i32": 4, "u32": 4}  # of a member in Rust; all others have 8 bytes


def of_header():
    """The numbers of croner.h by their names; a struct's is its size."""
    lines = [f'printf("{it} %zu\\n", sizeof(croner_{it}));' for it in STRUCTS]
    lines += [f'printf("{it} %lld\\n", (long long)CRONER_{it});' for it in (*STATUSES, *ENDS)]
    with tempfile.TemporaryDirectory() as room:
        program = Path(room) / "numbers.c"
        program.write_text("#include <croner.h>\n#include <stdio.h>\nint main(void) {\n" + "\n".join(lines) + "\nreturn 0;\n}\n", encoding="utf-8")
        subprocess.run(["cc", f"-I{TOP}/bindings/c", program, "-o", f"{room}/numbers"], check=True)
        shown = subprocess.run([f"{room}/numbers"], stdout=subprocess.PIPE, text=True, check=True).stdout
    return {name: int(number) for name, number in (it.split() for it in shown.splitlines())}


def constants(file):
    """The constants of a file in Rust or Rattle."""
    found = re.findall(r"(?m)^(?:pub(?:\(crate\))? )?const (\w+): \w+ = (-?[\d_]+);", (TOP / file).read_text(encoding="utf-8"))
    return {name: int(number) for name, number in found}


def of_crate():
    clock, fault, line, status = (f"crates/croner_c/src/{it}.rt" for it in ("clock", "fault", "line", "status"))
    arms = re.findall(r"Reason::(\w+) => (\d+),", (TOP / status).read_text(encoding="utf-8"))
    reasons = {re.sub(r"(?<!^)(?=[A-Z])", "_", name).upper(): int(number) for name, number in arms}
    sizes = {name: constants(file)[f"{name.upper()}_SIZE"] for name, file in (("clock", clock), ("fault", fault), ("line", line))}
    return {**sizes, **{it: constants(clock)[it] for it in ENDS}, "OK": constants(status)["OK"], **reasons}


def of_python():
    """Those of the module that names the library, whose head opens nothing."""
    text = (TOP / "bindings/python/croner/_library.py").read_text(encoding="utf-8")
    names = {}
    exec(text[: text.index("\ndef opened")], names)  # noqa: S102: it is a file of this repository
    return {**{it: ctypes.sizeof(names[it.capitalize()]) for it in STRUCTS}, **{it: names[it] for it in (*STATUSES, *ENDS)}}


def of_rust():
    file = "bindings/rust/src/raw.rs"
    structs = re.findall(r"pub struct (\w+) \{\n((?:    pub \w+: [^\n]+,\n)+)\}", (TOP / file).read_text(encoding="utf-8"))
    sizes = {name.lower(): sum(WIDTHS.get(it, 8) for it in re.findall(r": ([^,\n]+),", members)) for name, members in structs}
    return {**sizes, **constants(file)}


def main():
    wanted, passed, failed = of_header(), 0, 0
    for place, found in (("crates/croner_c", of_crate()), ("the Python package", of_python()), ("the Rust crate", of_rust())):
        for name in sorted(found.keys() & wanted.keys()):
            if found[name] == wanted[name]:
                passed += 1
            else:
                print(f"{name}: {found[name]} in {place}, and {wanted[name]} in croner.h")
                failed += 1
        lacking = {*ENDS, "clock", "OUTSIDE"} - found.keys()
        if lacking:
            print(f"{place} lacks {', '.join(sorted(lacking))}")
            failed += 1
    print(f"{passed} passed, {failed} failed")
    return min(failed, 1)


if __name__ == "__main__":
    sys.exit(main())
