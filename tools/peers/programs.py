"""The programs that tools/peers_test asks: how each is taken from Debian's packages, and what it answers.

A program that is installed is asked where it is. The packages cron, systemd-cron and bcron conflict: they are unpacked into a folder of the
test, and never installed. Of cron, busybox and bcron the source package is taken too: their readers are compiled with a question in front.
"""
import os
import queue
import re
import shutil
import subprocess
import sys
import threading
from concurrent.futures import ThreadPoolExecutor
from pathlib import Path

HERE = Path(__file__).resolve().parent
TOP = HERE.parent.parent
END = 1_988_150_400  # 2033-01-01: what starts later is never
PATIENCE = 5  # seconds of the processor: a program that takes more for an answer hangs
MOST_ENDS = 100  # how often a program may hang or crash
JARS = ["quartz.jar", "spring3-context.jar", "spring3-core.jar", "slf4j-api.jar", "commons-logging.jar"]
PYTHON = "/usr/bin/python3"  # that of the packages
CRONCHECKS = ["dist/croncheck", "crates/croncheck/out/croncheck"]


class Missing(Exception):
    """Why a program can't be asked here."""


def run(words, **more):
    ran = subprocess.run(words, capture_output=True, text=True, check=False, **more)
    if ran.returncode:
        raise Missing(f"{words[0]}: {(ran.stderr or ran.stdout).strip().splitlines()[-1:]}")
    return ran.stdout


def version(package):
    """The version of an installed package."""
    ran = subprocess.run(["dpkg-query", "-W", "-f", "${db:Status-Abbrev}${Version}", package], capture_output=True, text=True, check=False)
    if not ran.stdout.startswith("ii "):
        raise Missing(f"the package {package} isn't installed")
    return ran.stdout[3:].strip()


def unpacked(package, folder):
    """The folder of an unpacked package, and its version."""
    room = folder / package
    if not room.is_dir():
        run(["apt-get", "download", package], cwd=folder)
        run(["dpkg-deb", "-x", next(it.name for it in folder.glob(f"{package}_*.deb")), package], cwd=folder)
    name = next(folder.glob(f"{package}_*.deb")).name
    return room, name.split("_")[1].replace("%3a", ":")


def source(package, folder):
    """The folder of a source package, and its version. Where the mirror lacks the changes of Debian, it is the source without them."""
    room = folder / f"{package}-source"
    room.mkdir(exist_ok=True)
    found = [it for it in room.iterdir() if it.is_dir()]
    if not found:
        try:
            run(["apt-get", "source", "-q", package], cwd=room)
        except Missing:
            run(["apt-get", "source", "-q", "--download-only", "--tar-only", package], cwd=room)
            run(["tar", "xf", next(room.glob("*.orig.tar.*")).name], cwd=room)
        found = [it for it in room.iterdir() if it.is_dir()]
    return found[0]


def compiled(words, target):
    """A compiled reader."""
    if not target.is_file():
        run(["cc", "-O2", "-w", *map(str, words), "-o", str(target)])
    return str(target)


# ---- each program: the words that start it, and its version


def cron(folder):
    _, number = unpacked("cron", folder)
    tree = source("cron", folder)
    files = [tree / f"{it}.c" for it in ("entry", "env", "misc")]
    flags = ["-DDEBIAN", "-DDEBUGGING=0", "-DSYSLOG", "-I", tree]
    return [compiled([*flags, HERE / "ask_cron.c", *files], folder / "ask_cron"), str(END)], number


def bcron(folder):
    _, number = unpacked("bcron", folder)
    tree = source("bcron", folder)
    names = "crontab job job_dump sendpacket ministat time timespec-next timespec-parse".split()
    files = [tree / f"{it}.c" for it in names]
    return [compiled(["-I", tree, HERE / "ask_bcron.c", *files, "-lbg"], folder / "ask_bcron"), str(END)], number


def busybox(folder):
    """Its own build, with crond alone and crond's own settings: once as it is, and once with our file in the place of crond.c."""
    number = unpacked("busybox-static", folder)[1]
    tree, target = source("busybox", folder), folder / "busybox_asked"
    if not target.is_file():
        configure(tree)
        crond, kept = tree / "miscutils/crond.c", tree / "miscutils/crond_source.c"
        run(["make", "busybox_unstripped"], cwd=tree)
        shutil.copy(tree / "busybox_unstripped", folder / "busybox_crond")
        crond.rename(kept)
        shutil.copy(HERE / "ask_busybox.c", crond)
        run(["make", "busybox_unstripped"], cwd=tree)
        shutil.copy(tree / "busybox_unstripped", target)
    room = folder / "busybox-crontabs"
    room.mkdir(exist_ok=True)
    return [str(target), "crond", str(room), str(END)], number


def configure(tree):
    """The settings of busybox: those of crond come up once crond is chosen."""
    wanted = "CROND FEATURE_CROND_D FEATURE_CROND_CALL_SENDMAIL FEATURE_CROND_SPECIAL_TIMES FEATURE_SYSLOG LFS DESKTOP"
    config = tree / ".config"
    run(["make", "allnoconfig"], cwd=tree)
    for _ in range(2):
        text = re.sub(rf"# CONFIG_({wanted.replace(' ', '|')}) is not set", r"CONFIG_\1=y", config.read_text())
        config.write_text(text)
        run(["sh", "-c", "yes '' | make oldconfig"], cwd=tree)


def systemd_cron(folder):
    room, number = unpacked("systemd-cron", folder)
    if not shutil.which("systemd-analyze"):
        raise Missing("the package systemd isn't installed")
    generator = room / "lib/systemd/system-generators/systemd-crontab-generator"
    return [PYTHON, "-W", "ignore", str(HERE / "ask_systemd.py"), str(generator)], f"{number}, with systemd {version('systemd')}"


def mcron(_):
    return ["guile-3.0", "--no-auto-compile", "-L", "/usr/share", str(HERE / "ask.scm")], version("mcron")


def ruby(name):
    return lambda _: (["ruby", "-W0", str(HERE / "ask.rb"), name], version(f"ruby-{name}"))


def php(_):
    return ["php", str(HERE / "ask.php")], version("php-dragonmantank-cron-expression")


def perl(_):
    return ["perl", str(HERE / "ask.pl")], version("libschedule-cron-perl")


def python(name, package):
    return lambda _: ([PYTHON, "-W", "ignore", str(HERE / "ask.py"), name], version(package))


def java(name, package):
    def made(folder):
        number = version(package)
        path = ":".join(f"/usr/share/java/{it}" for it in JARS)
        if not (folder / "Ask.class").is_file():
            run(["javac", "-cp", path, "-d", str(folder), str(HERE / "Ask.java")])
        return ["java", "-cp", f"{path}:{folder}", "Ask", name], number

    return made


def robfig(folder):
    number, target = version("golang-github-robfig-cron-dev"), folder / "ask_robfig"
    if not target.is_file():
        env = {**os.environ, "GO111MODULE": "off", "GOPATH": "/usr/share/gocode", "GOCACHE": str(folder / "go")}
        run(["go", "build", "-o", str(target), str(HERE / "ask.go")], env=env)
    return [str(target)], number


def croner(folder):
    """The built program of this repository, or one that stands in the folder of the test."""
    code = (TOP / "crates/croncheck_command/src/words.rt").read_text(encoding="utf-8")
    number = re.search(r'const VERSION: &str = "([\d.]+),', code)[1]
    places = [folder / "croncheck", *(TOP / it for it in CRONCHECKS)]
    found = [it for it in places if os.access(it, os.X_OK)]
    if not found:
        raise Missing("croncheck isn't built")
    return [PYTHON, str(HERE / "ask_croner.py"), str(found[0])], number


PROGRAMS = {
    "cron": cron,
    "systemd-cron": systemd_cron,
    "busybox": busybox,
    "bcron": bcron,
    "mcron": mcron,
    "fugit": ruby("fugit"),
    "parse-cron": ruby("parse-cron"),
    "cron-expression": php,
    "Schedule::Cron": perl,
    "python-crontab": python("python-crontab", "python3-crontab"),
    "croniter": python("croniter", "python3-croniter"),
    "APScheduler": python("APScheduler", "python3-apscheduler"),
    "Quartz": java("quartz", "libquartz-java"),
    "Spring": java("spring", "libspring-context-java"),
    "robfig": robfig,
    "croner": croner,
}


# ---- questions and answers


def processor_seconds(process):
    """What a process has used of the processor."""
    try:
        fields = Path(f"/proc/{process}/stat").read_text(encoding="utf-8").rsplit(")", 1)[1].split()
    except OSError:
        return 0
    return (int(fields[11]) + int(fields[12])) / os.sysconf("SC_CLK_TCK")


class Asker:
    """A program that answers each question as it comes, by one process as long as that lives."""

    def __init__(self, words, env):
        self.words, self.env, self.process, self.said = words, env, None, None

    def begin(self):
        if self.process is None:
            pipes = {"stdin": subprocess.PIPE, "stdout": subprocess.PIPE, "stderr": subprocess.DEVNULL}
            self.process, self.said = subprocess.Popen(self.words, text=True, env=self.env, **pipes), queue.Queue()
            threading.Thread(target=self.listen, args=(self.process, self.said), daemon=True).start()

    @staticmethod
    def listen(process, said):
        for line in process.stdout:
            said.put(line.strip())
        said.put(None)

    def feed(self, questions):
        try:
            self.process.stdin.write("".join(f"{second}\t{line}\n" for second, line in questions))
            self.process.stdin.flush()
        except (BrokenPipeError, ValueError):
            pass

    def end(self):
        if self.process is not None:
            self.process.kill()
            self.process.wait()
            self.process = None

    def some_answers(self, questions):
        """The answers up to the question at which the process hangs or ends, and which of both it did."""
        self.begin()
        threading.Thread(target=self.feed, args=(questions,), daemon=True).start()
        answers, used = [], processor_seconds(self.process.pid)
        while len(answers) < len(questions):
            try:
                answer = self.said.get(timeout=1)
            except queue.Empty:
                if processor_seconds(self.process.pid) < used + PATIENCE:
                    continue
                self.end()
                return answers, "hangs"
            if answer is None:
                self.end()
                return answers, "crashes"
            answers.append(answer)
            used = processor_seconds(self.process.pid)
        return answers, ""

    def ask(self, questions):
        answers, ends = [], 0
        while len(answers) < len(questions):
            some, why = self.some_answers(questions[len(answers) :])
            answers += some
            if why:
                print(f"peers_test: {' '.join(self.words[:4])} {why} at {questions[len(answers)]}", file=sys.stderr, flush=True)
                answers.append(why)
                ends += 1
            if ends > MOST_ENDS:
                sys.exit("peers_test: that is too often")
        return answers


class Batch(Asker):
    """A program that reads all questions before it answers the first: a process for each time that it is asked."""

    def ask(self, questions):
        text = "".join(f"{second}\t{line}\n" for second, line in questions)
        ran = subprocess.run(self.words, input=text, env=self.env, capture_output=True, text=True, check=True)
        return ran.stdout.split("\n")[: len(questions)]


ASKERS = {}  # those that have begun, by their words, zone and lane


def asker(words, zone, lane):
    key = (*words, zone, lane)
    if key not in ASKERS:
        kind = Batch if any(it.endswith(("ask_systemd.py", "ask_croner.py")) for it in words) else Asker
        ASKERS[key] = kind(words, {**os.environ, "TZ": zone, "LC_ALL": "C.UTF-8"})
    return ASKERS[key]


def end_all():
    for each in ASKERS.values():
        each.end()
    ASKERS.clear()


def ask(words, questions, lanes=1, zone="UTC"):
    """The answer to each question: a second, `never`, `refused`, `hangs` or `crashes`. Questions of one second stand side by side."""
    places = sorted(range(len(questions)), key=lambda it: questions[it][0])
    size = max(1, -(-len(places) // lanes))
    parts = [places[at : at + size] for at in range(0, len(places), size)]
    with ThreadPoolExecutor(lanes) as pool:
        asked = lambda it: asker(words, zone, it[0]).ask([questions[at] for at in it[1]])
        given = list(pool.map(asked, enumerate(parts)))
    answers = [""] * len(questions)
    for those, some in zip(parts, given):
        for at, answer in zip(those, some):
            answers[at] = answer
    return answers
