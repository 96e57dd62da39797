"""What the tests share that call the library for other languages: where it is made, and programs over it."""
import os
import re
import shutil
import subprocess
from pathlib import Path

TOP = Path(__file__).resolve().parent.parent
SONAME, ARCHIVE = "libcroner.so.1", TOP / "crates/croner_c/out/libcroner_c.a"
PARIS = Path("/usr/share/zoneinfo/Europe/Paris")
NEXT_RUNS = {
    "c": r"@\d+ \d{4}-\d\d-\d\dT0[78]:00:00Z\n",
    "python": r"(\d{4}-\d\d-\d\d 09:00:00\+0[12]:00\n){4}",
    "rust": r"\d{4}-\d\d-\d\dT09:00:00\+0[12]:00\n",
}


def debian(name):
    """Debian's own program of a name, since its packages are of that; else the one in PATH, or None."""
    path = f"/usr/bin/{name}"
    return path if os.access(path, os.X_OK) else shutil.which(name)


def called(*words, **more):
    """A call, with all that it writes as its standard output."""
    both = {"stdout": subprocess.PIPE, "stderr": subprocess.STDOUT, "stdin": subprocess.DEVNULL, "text": True, "check": False}
    return subprocess.run([str(it) for it in words], **both, **more)


def package(folder, to):
    """Puts the Python package into a folder, with the library of a folder in it."""
    shutil.copytree(TOP / "bindings/python", to, ignore=shutil.ignore_patterns("__pycache__"))
    shutil.copy(folder / SONAME, to / "croner" / SONAME)


def made(folder, *words):
    """Makes the library in a folder by tools/library. Gives the folder of its files, and what is said where it can't be made."""
    ran = called(TOP / "tools/library", *words, folder)
    return folder / "lib", ran.stdout.strip() if ran.returncode else ""


def made_of_archive(folder):
    """The same of the archive that was proved last."""
    return made(folder, "--of", ARCHIVE) if ARCHIVE.is_file() else (folder, "the proved library isn't built")


def made_after_ci(folder):
    """The same where `rt ci` has just proved all."""
    ran = called(TOP / "tools/bindings/archive.py")
    if ran.returncode == 2:
        return made(folder)
    return made(folder, "--of", ARCHIVE) if ran.returncode == 0 else (folder, ran.stdout.strip())


def next_run_of_c(folder, room):
    made = called("cc", TOP / "bindings/c/next_run.c", "-I", folder.parent / "include", "-L", folder, "-lcroner", "-o", room / "next_run")
    return made if made.returncode else called(room / "next_run", env={"LD_LIBRARY_PATH": str(folder)})


def next_run_of_python(folder, room):
    package(folder, room / "package")
    return called(debian("python3"), room / "package/next_run.py")


def next_run_of_rust(folder, room):
    rust, rustc = TOP / "bindings/rust", [debian("rustc"), "--edition", "2021"]
    library = ["--crate-type", "rlib", "--crate-name", "croner_proved", "--out-dir", room, "-L", f"native={folder}", "-l", "static=croner"]
    made = called(*rustc, *library, rust / "src/lib.rs")
    if not made.returncode:
        words = ["--extern", f"croner_proved={room}/libcroner_proved.rlib", "-o", room / "next_run_of_rust"]
        made = called(*rustc, *words, rust / "examples/next_run.rs")
    return made if made.returncode else called(room / "next_run_of_rust")


def next_runs(folder, room):
    """Of each language what its program of the next run lacks to be run, and what is said where it fails; each is empty where nothing is."""
    for language, needs, run in (
        ("c", ["cc"], next_run_of_c), ("python", ["python3"], next_run_of_python), ("rust", ["rustc", "cc"], next_run_of_rust)
    ):
        lacks = [it for it in needs if not debian(it)] + [str(PARIS)] * (not PARIS.is_file())
        if lacks:
            yield language, " and ".join(lacks), ""
            continue
        ran = run(folder, Path(room))
        is_right = ran.returncode == 0 and re.fullmatch(NEXT_RUNS[language], ran.stdout)
        yield language, "", "" if is_right else f"status {ran.returncode}: {ran.stdout}"
