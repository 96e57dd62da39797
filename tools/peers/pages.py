"""Words of docs/PEERS.md: the programs' titles, how each was asked, and answers as the page has them."""
from answers import WORDS

TITLES = {
    "cron": "Debian's cron",
    "systemd-cron": "systemd-cron",
    "busybox": "busybox crond",
    "bcron": "bcron",
    "mcron": "mcron",
    "fugit": "fugit (Ruby)",
    "parse-cron": "parse-cron (Ruby)",
    "cron-expression": "cron-expression (PHP)",
    "Schedule::Cron": "Schedule::Cron (Perl)",
    "python-crontab": "python-crontab",
    "croniter": "croniter (Python)",
    "APScheduler": "APScheduler (Python)",
    "Quartz": "Quartz (Java)",
    "Spring": "Spring (Java)",
    "robfig": "robfig/cron (Go)",
    "croner": "croner",
}

ASKED = {
    "cron": "Its own `load_entry` and `find_jobs`, compiled from the source package, read the line and look at each minute.",
    "systemd-cron": "Its generator makes a timer of the line. `systemd-analyze calendar` lists when that timer starts.",
    "busybox": "The functions of its `crond.c`, compiled from the source package with crond's default options, read the line and look at "
    "each minute. The crond of the package busybox-static lacks one option (`FEATURE_CROND_D`), and crashes at a line with a nickname.",
    "bcron": "Its own `crontab_parse` and `timespec_next`, compiled from the source package without Debian's changes.",
    "mcron": "Its own modules read the line as a file (`read-vixie-port`) and find the next start (`find-next-jobs`).",
    "fugit": "`Fugit.parse_cron` and `next_time`.",
    "parse-cron": "`CronParser.new` and `next`.",
    "cron-expression": "`CronExpression` and `getNextRunDate`.",
    "Schedule::Cron": "`add_entry` and `get_next_execution_time`.",
    "python-crontab": "`CronTab` reads the line; croniter finds its starts, as this program has it do.",
    "croniter": "`croniter` and `get_next`.",
    "APScheduler": "`CronTrigger.from_crontab` and `get_next_fire_time`.",
    "Quartz": "`CronExpression` and `getNextValidTimeAfter`. It wants seconds and one `?`: a 0 was put in front, and a `?` for a lone `*` in "
    "one day field.",
    "Spring": "`CronSequenceGenerator` and `next`. It wants seconds: a 0 was put in front.",
    "robfig": "`ParseStandard` and `Next`.",
    "croner": "`croncheck next`, with croner's default settings.",
}
MONTHS = "Jan Feb Mar Apr May Jun Jul Aug Sep Oct Nov Dec".split()


def joined(names):
    """Names of programs as a list of a sentence."""
    return ", ".join(names)


def told(cell):
    return {"never": "never", "refused": "refused"}.get(cell, cell)


def starts(text):
    """The starts of an answer, each with its date: `13 Dec 00:00`."""
    found, date, year = [], "", ""
    for word in text.split():
        if word in WORDS:
            found.append(word)
        elif ":" in word:
            found.append(f"{date}{year} {word}")
        else:
            parts = word.split("-")
            date = f"{int(parts[-1])} {MONTHS[int(parts[-2]) - 1]}"
            year = f" {parts[0]}" if len(parts) == 3 else year
    return found


def difference(own, other):
    """Two answers, from the first start on that differs: that one and the next."""
    pair = [starts(own), starts(other)]
    at = next((it for it, (a, b) in enumerate(zip(*pair)) if a != b), min(map(len, pair)))
    return [", ".join(it[at : at + 2]) or "no more" for it in pair]
