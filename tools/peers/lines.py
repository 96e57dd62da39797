"""The lines of tools/peers_test: 3,000 made up by a seed, as people write them and as they get them wrong."""
import random

SEED, COUNT = 88, 3_000
MONTHS = "jan feb mar apr may jun jul aug sep oct nov dec".split()
WEEKDAYS = "sun mon tue wed thu fri sat".split()
FULL = ["sunday", "monday", "friday", "Saturday", "Tues", "thurs", "January", "march", "Sept", "december"]
NICKNAMES = "@daily @weekly @hourly @monthly @yearly @annually @midnight @reboot @DAILY @Weekly @every_minute @noon @minutely @quarterly".split()
ODD_LINES = ["@every 5m", "@every 1h30m", "@daily ", "* * * *", "0 0 * *", "* * * * * *", "0 * * * * *", "*/10 * * * * *", "0 0 12 * * ?", "0 30 9 * * 1-5"]


def choose(rng, table):
    """One of a table's rows, by their weights."""
    return rng.choices([it for _, it in table], [weight for weight, _ in table])[0](rng)


def spelt(rng, name):
    return rng.choice([name, name.upper(), name.upper(), name.capitalize()])


def number(low, high):
    return lambda rng: str(rng.randint(low, high))


def word(*words):
    return lambda rng: rng.choice(words)


def listed(low, high, most=4):
    return lambda rng: ",".join(map(str, sorted(rng.sample(range(low, high + 1), rng.randint(2, most)))))


def span(low, high):
    def made(rng):
        first, last = sorted(rng.sample(range(low, high + 1), 2))
        return f"{first}-{last}"

    return made


def falling(low, high):
    def made(rng):
        first, last = sorted(rng.sample(range(low, high + 1), 2))
        return f"{last}-{first}"

    return made


def stepped(low, high, most):
    return lambda rng: f"{span(low, high)(rng)}/{rng.randint(2, most)}"


def mixed(low, high, most):
    def made(rng):
        first = rng.choice([span(low, high), number(low, high), lambda it: f"*/{it.randint(2, most)}"])(rng)
        return f"{first},{rng.choice([span(low, high), number(low, high), stepped(low, high, most)])(rng)}"

    return made


def names(table, joint):
    def made(rng):
        chosen = rng.sample(table, 2 if joint == "-" else rng.randint(2, 3))
        if joint == "-" and rng.random() < 0.8:
            chosen.sort(key=table.index)
        how = rng.choice([str, str.upper, str.capitalize])
        return joint.join(map(how, chosen))

    return made


MINUTES = [
    (14, word("*")),
    (26, word("0")),
    (22, number(1, 59)),
    (13, word("*/5", "*/10", "*/15", "*/30", "*/20", "*/2")),
    (3, word("*/7", "*/3", "*/45", "*/40", "*/25", "*/4", "*/59", "*/12")),
    (1.5, word("*/60", "*/61", "*/90", "*/100", "*/0", "*/120")),
    (5, word("0,30", "0,15,30,45", "15,45", "5,35")),
    (3, listed(0, 59)),
    (3, span(0, 59)),
    (2, stepped(0, 59, 20)),
    (2, mixed(0, 59, 30)),
    (1.5, lambda rng: f"{rng.choice([0, 0, 1, 2, 5, 7])}/{rng.choice([5, 10, 15, 30])}"),
    (1, falling(0, 59)),
    (1.5, word("60", "61", "70", "99", "0-60", "59-60")),
    (1, word("00", "05", "07", "08", "09", "000")),
    (1, word("?", "-", "0-", "*5", "**", "5x", "0~30", "H", "H/15", "+5", "-1", "0,", ",0", "5,,10", "1.5", "*/5*", "*/*", "0-59/", "0;30", "*,5", "5,*", "a")),
]
HOURS = [
    (32, word("*")),
    (12, word("0")),
    (22, number(1, 23)),
    (9, word("*/2", "*/3", "*/4", "*/6", "*/8", "*/12")),
    (2, word("*/5", "*/7", "*/9", "*/10", "*/16", "*/23")),
    (1, word("*/24", "*/25", "*/48", "*/0")),
    (6, word("9-17", "8-18", "9-18", "7-19", "0-6", "6-22", "8-17")),
    (4, word("0,12", "8,20", "6,18", "9,12,15")),
    (2, listed(0, 23)),
    (2, span(0, 23)),
    (2, stepped(0, 23, 6)),
    (1, mixed(0, 23, 6)),
    (1, lambda rng: f"{rng.randint(0, 9)}/{rng.choice([2, 3, 4, 6])}"),
    (1.5, word("22-2", "22-6", "18-8", "23-5", "20-4")),
    (0.5, falling(0, 23)),
    (1.2, word("24", "25", "0-24", "23-24", "12,24")),
    (1, word("00", "01", "08", "09")),
    (0.5, word("?", "2am", "8-17,", "H", "*-5", "9-17/0", "8:30", "1-", "0x10", "8--9")),
]
DAYS = [
    (64, word("*")),
    (7, word("1")),
    (6, number(2, 31)),
    (3, word("1,15", "15,30", "10,20", "1,11,21")),
    (2.5, word("1-7", "8-14", "15-21", "25-31", "1-5", "1-10")),
    (3.5, word("*/2", "*/3", "*/5", "*/10", "*/15", "*/7")),
    (0.7, word("*/31", "*/32", "*/1", "*/30", "*/0", "*/40")),
    (2, listed(1, 31)),
    (1.5, span(1, 31)),
    (1.5, word("1-31/2", "2-30/2", "1-31/7", "1-7/2", "1-31", "1-30/3", "5-25/10")),
    (1, mixed(1, 31, 10)),
    (1, falling(1, 31)),
    (1.2, word("0", "32", "0-31", "31-32", "33")),
    (1, lambda rng: f"{rng.randint(1, 5)}/{rng.choice([2, 3, 5, 7])}"),
    (2, word("L", "LW", "15W", "L-3", "?", "?", "1W", "01", "08", "last", "31,L", "1,L")),
]
MONTH_FIELDS = [
    (74, word("*")),
    (5, number(1, 12)),
    (5, lambda rng: spelt(rng, rng.choice(MONTHS))),
    (2, word("*/2", "*/3", "*/4", "*/6")),
    (0.7, word("*/5", "*/12", "*/13", "*/7", "*/0")),
    (2, word("1,7", "1,4,7,10", "3,6,9,12", "6,12", "2,8")),
    (1.5, listed(1, 12)),
    (1.5, word("1-6", "7-12", "6-8", "3-10", "1-12", "4-9")),
    (1.2, names(MONTHS, "-")),
    (1.2, names(MONTHS, ",")),
    (0.7, stepped(1, 12, 4)),
    (0.8, word("11-2", "10-3", "NOV-FEB", "12-1", "oct-mar")),
    (0.8, word("0", "13", "0-11", "1-13", "12,13")),
    (0.6, word("1/3", "2/2", "1/2")),
    (0.8, lambda rng: rng.choice(FULL[6:])),
    (0.8, word("?", "L", "01", "janx", "jan/2", "JAN-", "1-feb", "fri", "*/jan", "01-06")),
]
WEEKDAY_FIELDS = [
    (46, word("*")),
    (9, word("0", "1", "5", "6", "3")),
    (3.5, word("7")),
    (10, word("1-5", "1-5", "1-5", "0-4", "1-6", "2-6", "1-4")),
    (5, word("MON-FRI", "mon-fri", "Mon-Fri")),
    (6, lambda rng: spelt(rng, rng.choice(WEEKDAYS))),
    (3, word("0,6", "6,0", "6,7", "1,3,5", "2,4", "1,4")),
    (2, listed(0, 7)),
    (2, names(WEEKDAYS, ",")),
    (1.5, names(WEEKDAYS, "-")),
    (1.5, word("5-7", "6-7", "0-7", "1-7", "4-7", "0-6", "7-7")),
    (1.2, word("fri-sun", "SAT-SUN", "Fri-Sun", "sun-thu", "SUN-SAT", "mon-sun", "sat-mon", "FRI-MON")),
    (1, word("5-1", "6-0", "6-1", "7-1", "7-2", "7-3")),
    (1.5, word("*/2", "*/3", "*/7", "*/1", "*/5", "*/8", "*/0")),
    (1, word("1-5/2", "0-6/2", "1-7/2", "1-7/3", "MON-FRI/2")),
    (1, word("8", "0-8", "9", "7,8")),
    (0.8, lambda rng: rng.choice(FULL[:6])),
    (2.2, word("?", "?", "?", "L", "5L", "1#1", "1#2", "fri#3", "FRIL", "6#5", "1,L")),
    (0.8, word("1/2", "mon/2", "Mon,", "01", "07", "wed-2", "1-fri", "x", "sun-7", "SUN,7", "m", "mo", "0w")),
]


def made_line(rng):
    if rng.random() < 0.012:
        return rng.choice(NICKNAMES)
    if rng.random() < 0.006:
        return rng.choice(ODD_LINES)
    fields = [choose(rng, it) for it in (MINUTES, HOURS, DAYS, MONTH_FIELDS, WEEKDAY_FIELDS)]
    if fields[2] == "?" == fields[4]:
        fields[4] = "*"
    joint = rng.choices([" ", "  ", "\t"], [97, 2, 1])[0]
    return joint.join(fields)


def made_up(seed=SEED, count=COUNT):
    """So many lines, each once, by a seed."""
    rng, lines = random.Random(seed), {}
    while len(lines) < count:
        lines[made_line(rng)] = None
    return list(lines)
