"""Asks croner, by the program croncheck of this repository: 'croncheck next', with the settings that it has by itself.

    python3 ask_croner.py CRONCHECK

Questions and answers are those of ask_cron.c, but all questions are read first: those of one second are asked in one call.
"""
import os
import re
import subprocess
import sys

MOST = 200  # patterns of one call


def answers_of(program, patterns, second):
    """Of each pattern its next start after a second, `never` or `refused`: each has a block, with blank lines between them."""
    zone = os.environ.get("TZ", "UTC").replace("UTC", "UTC0")
    words = [program, "next", "--zone", zone, "--from", f"@{second}", "--runs", "1", "--color", "never", "--", *patterns]
    shown = subprocess.run(words, capture_output=True, text=True, check=False).stdout
    blocks = shown.rstrip("\n").split("\n\n")
    assert len(blocks) == len(patterns), (len(blocks), len(patterns))
    for block in blocks:
        start = re.search(r"(?m)  @(\d+)$", block)
        yield start[1] if start else "refused" if re.search(r"(?m)^ *\^+$", block) else "never"


def main():
    questions = [it.rstrip("\n").split("\t", 1) for it in sys.stdin]
    answers = {}
    for second in sorted({it for it, _ in questions}):
        patterns = list(dict.fromkeys(line for it, line in questions if it == second))
        for at in range(0, len(patterns), MOST):
            asked = patterns[at : at + MOST]
            answers.update(zip(((second, it) for it in asked), answers_of(sys.argv[1], asked, second)))
    print("\n".join(answers[tuple(it)] for it in questions), flush=True)


main()
