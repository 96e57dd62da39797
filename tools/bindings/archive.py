#!/usr/bin/env python3
"""Builds the archive of the crate croner_c over the libraries that `rt ci` has left, where it has just proved all of them.

`rt lib` would prove these libraries anew, since those of `rt ci` have no stamp. The crate itself is proved once more. With the archive a
stamp is kept by which tools/library knows it. It calls the kit's own module rtlib, as the command rt does. Where a library has a stamp
it is of an earlier `rt lib`, which `rt ci` has put back: then `rt lib` takes these up, and the status is 2.
"""
import importlib.util
import os
import shutil
import subprocess
import sys
from pathlib import Path

TOP = Path(__file__).resolve().parent.parent.parent
CRATE = "croner_c"
OUT = TOP / "crates" / CRATE / "out"
# What tools/library compares.
STATE = '. "$top/tools/program.sh" && used=$(kit) && state "$used"'


def state():
    """All that the archive depends on."""
    ran = subprocess.run(["sh", "-c", STATE], env={**os.environ, "top": str(TOP), "program": CRATE}, stdout=subprocess.PIPE, check=True)
    return ran.stdout


def module_of_kit():
    """The module of the command rt, from its folder."""
    rt = shutil.which("rt")
    path = Path(rt).resolve().parent / "rtlib.py" if rt else None
    if not path or not path.is_file():
        sys.exit("archive: there is no kit whose command rt is in PATH")
    spec = importlib.util.spec_from_file_location("rtlib", path)
    made = sys.modules["rtlib"] = importlib.util.module_from_spec(spec)
    spec.loader.exec_module(made)
    return made


def main():
    sys.dont_write_bytecode = True
    rtlib, before = module_of_kit(), state()
    crate = {it.name: it for it in rtlib.crates_below(str(TOP))}.get(CRATE)
    if not crate:
        sys.exit(f"archive: there is no crate {CRATE}")
    lacking = [it.name for it in crate.below() if not os.path.isdir(it.rlib)]
    if lacking:
        sys.exit(f"archive: not proved here: {' '.join(lacking)}")
    if any(Path(it.rlib).with_name("stamp").exists() for it in crate.below()):
        return 2
    OUT.mkdir(exist_ok=True)
    words = [*crate.words(["--jobs", os.environ.get("RT_JOBS", "2")], keeps=False), "--toolchain", f"{rtlib.KIT}/toolchain"]
    words = [*rtlib.guarded(), rtlib.RATTLE, "build", *words, "-o", f"out/lib{CRATE}.a"]
    status = subprocess.run(words, cwd=crate.folder, stdin=subprocess.DEVNULL, check=False).returncode
    if status == 0 and state() == before:
        (OUT / "library.stamp").write_bytes(before)
    return status


sys.exit(main())
