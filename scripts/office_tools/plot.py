"""Draws a report of the office, as the program prints it: what each school's students have of each program, Scheduled Awards by
Student Aid Index, what schools have to return by the week in which it is due, or lifetime use. Draws an SVG picture, the same
bytes on every machine, or, where PICTURE is -, a histogram in text.

usage: office plot standing|awards|returns YEAR [PICTURE.svg] < REPORT      without PICTURE, awards-YEAR.svg and the like
       office plot lifetime [PICTURE.svg] < REPORT
"""
import datetime
import sys
from collections import Counter, defaultdict

from .amounts import cents
from .say import refuse
from .svg import Picture, ticks

PROGRAMS = {"unsub": "#4e79a7", "sub": "#a0cbe8", "plus": "#f28e2b", "pell": "#59a14f", "fseog": "#b6992d", "teach": "#e15759"}
STUDENTS, DOLLARS = "#c9d3df", "#2f6f3e"
WIDTH = 50              # signs of the longest bar of text
STEP = 1_000            # a bar of the Student Aid Index
PAST = 16_000           # an index past which nothing is drawn
USE_STEP, USE_LIMIT = 50_000, 600_000
WEEK = datetime.timedelta(days=7)


def lines_of(text, columns):
    """The lines of a report, each by its columns."""
    *lines, last = [line.split() for line in text.splitlines()] or [[]]
    if last != ["rows", str(len(lines))] or any(len(line) != columns for line in lines):
        refuse("this is no such report: it has other columns, or was cut short")
    return lines


def dollars(amount):
    return f"{amount / 100:,.2f}"


def awards_of(text):
    """The cents of each school by program."""
    sums = defaultdict(Counter)
    for school, _, _, program, net in lines_of(text, 5):
        sums[int(school)][program] += cents(net)
    return dict(sorted(sums.items()))


def standings_of(text):
    """The Scheduled Awards of the students in each step of the Student Aid Index."""
    awards = defaultdict(list)
    for _, _, index, _, award, _, _ in lines_of(text, 7):
        awards[int(index) // STEP * STEP].append(int(award))
    return dict(sorted(awards.items()))


def returns_of(text):
    """The cents that schools return, by the Monday of the week in which they are due."""
    sums = Counter()
    for _, _, _, _, returned, _, _, due in lines_of(text, 8):
        if due != "none":
            day = datetime.date.fromisoformat(due)
            sums[day - datetime.timedelta(days=day.weekday())] += cents(returned)
    return dict(sorted(sums.items()))


def lifetime_of(text):
    """How many students have used so much of the lifetime limit, by steps of half an award; the limit itself counts below it."""
    counts = Counter()
    for _, _, used in lines_of(text, 3):
        counts[min(int(used), USE_LIMIT - 1) // USE_STEP * USE_STEP] += 1
    return dict(sorted(counts.items()))


def bar(amount, greatest):
    """A bar of a histogram, of one sign at least where there is something."""
    return "#" * max(round(WIDTH * amount / greatest), amount > 0)


def awards_text(sums):
    """A bar for each program of each school."""
    greatest = max((amount for programs in sums.values() for amount in programs.values()), default=1)
    for school, programs in sums.items():
        for program in PROGRAMS:
            if programs[program]:
                print(f"{school:>6} {program:<5} {dollars(programs[program]):>14} {bar(programs[program], greatest)}")


def standings_text(awards):
    """How many students there are by Student Aid Index, and the mean of their Scheduled Awards."""
    greatest = max(map(len, awards.values()), default=1)
    for low, found in awards.items():
        print(f"{low:>7} to {low + STEP - 1:>7} {sum(found) / len(found):>8,.0f} dollars {len(found):>6} {bar(len(found), greatest)}")


def returns_text(sums):
    """A bar for each week in which something is due."""
    for monday, amount in sums.items():
        line = f"{monday} to {monday + WEEK - datetime.timedelta(days=1)} {dollars(amount):>14} {bar(amount, max(sums.values()))}"
        print(line.rstrip())


def lifetime_text(counts):
    """A bar for each step of lifetime use."""
    for low, count in counts.items():
        print(f"{low // 1000:>4} to {(low + USE_STEP) // 1000:>4} percent {count:>6} {bar(count, max(counts.values()))}")


def every(count, most=16):
    """The step by which so many places have at most so many words under them."""
    return max(-(-count // most), 1)


def awards_picture(sums, title):
    """Bars of schools, each with its programs on one another."""
    picture = Picture(title, "school", 0, len(sums), max((sum(each.values()) for each in sums.values()), default=1))
    picture.scale(lambda at: f"${at // 100:,}")
    for at, (school, programs) in enumerate(sums.items()):
        below = 0
        for program, color in PROGRAMS.items():
            if programs[program]:
                said = f"{school} {program} {dollars(programs[program])}"
                picture.bar(at + 0.2, at + 0.8, below, below + programs[program], color, said)
                below += programs[program]
    picture.marks([(at + 0.5, school) for at, school in enumerate(sums) if at % every(len(sums)) == 0])
    picture.legend([(program, color) for program, color in PROGRAMS.items() if any(each[program] for each in sums.values())])
    return picture


def standings_picture(awards, title):
    """A line of the mean Scheduled Award over bars of how many students there are."""
    drawn = {low: found for low, found in awards.items() if low < PAST}
    past = sum(len(found) for low, found in awards.items() if low >= PAST)
    low, high = min(drawn, default=0), max(drawn, default=0) + STEP
    means = {at: sum(found) / len(found) for at, found in drawn.items()}
    below = "Student Aid Index" + (f" ({past:,} students from {PAST:,} on are not drawn)" if past else "")
    students = max(map(len, drawn.values()), default=1)
    picture = Picture(f"{title}: {sum(map(len, awards.values())):,} students", below, low, high, round(max(means.values(), default=1)), students)
    picture.scale(lambda at: f"${at:,}", 0, DOLLARS)
    picture.scale(lambda at: f"{at:,}", 1)
    for at, found in drawn.items():
        picture.bar(at + 40, at + STEP - 40, 0, len(found), STUDENTS, f"{at:,} to {at + STEP - 1:,}: {len(found):,} students", 1)
    picture.line([(at + STEP / 2, mean, f"{at:,} to {at + STEP - 1:,}: ${mean:,.0f}") for at, mean in means.items()], DOLLARS)
    picture.marks([(at, f"{at:,}") for at in ticks(low, high, 9)])
    picture.legend([("mean Scheduled Award, at the left", DOLLARS), ("students, at the right", STUDENTS)])
    return picture


def returns_picture(sums, title):
    """A bar for each week."""
    first, last = min(sums, default=datetime.date(2000, 1, 3)), max(sums, default=datetime.date(2000, 1, 3))
    weeks = (last - first) // WEEK + 1
    picture = Picture(title, "the week from this Monday on, in which they are due", 0, weeks, max(sums.values(), default=1))
    picture.scale(lambda at: f"${at / 100:,.2f}" if max(sums.values(), default=1) < 1_000 else f"${at // 100:,}")
    for monday, amount in sums.items():
        at = (monday - first) // WEEK
        picture.bar(at + 0.1, at + 0.9, 0, amount, PROGRAMS["teach"], f"{monday}: {dollars(amount)}")
    if sums:
        picture.marks([(at + 0.5, first + at * WEEK) for at in range(0, weeks, every(weeks, 7))])
    return picture


def lifetime_picture(counts, title):
    """A bar for each step of use, and the limit."""
    picture = Picture(f"{title}: {sum(counts.values()):,} students", "percent of a Scheduled Award", 0, USE_LIMIT + USE_STEP, max(counts.values(), default=1))
    picture.scale(lambda at: f"{at:,}")
    for low, count in counts.items():
        said = f"{low // 1000} to {(low + USE_STEP) // 1000} percent: {count:,} students"
        picture.bar(low + 3_000, low + USE_STEP - 3_000, 0, count, PROGRAMS["unsub"], said)
    picture.marks([(at, at // 1000) for at in range(0, USE_LIMIT + 1, 2 * USE_STEP)])
    picture.limit(USE_LIMIT, "the limit, 600 percent")
    return picture


KINDS = {
    "standing": (standings_of, standings_text, standings_picture, "Scheduled Awards"),
    "awards": (awards_of, awards_text, awards_picture, "Awards by school"),
    "returns": (returns_of, returns_text, returns_picture, "Returns by the week in which they are due"),
    "lifetime": (lifetime_of, lifetime_text, lifetime_picture, "Lifetime use"),
}


def main(which, year, name):
    """Draws the report on standard input."""
    read, write, draw, title = KINDS[which]
    try:
        told = read(sys.stdin.read())
    except (ValueError, OverflowError):
        refuse("this is no such report: it has other columns, or was cut short")
    if name == "-":
        print(f"{title}, {year}" if year else title)
        write(told)
        return
    text = draw(told, f"{title}, {year}-{(year + 1) % 100:02}" if year else title).text()
    try:
        with open(name, "w", encoding="ascii", newline="\n") as file:
            file.write(text)
    except OSError as error:
        refuse(f"{name} can't be written: {error.strerror}")
    print(name)


def run(words):
    """Draws the report on standard input in a picture, or in text."""
    which, *words = words or [""]
    if which not in KINDS:
        refuse("there is no such report: plot takes standing, awards or returns with a YEAR, or lifetime")
    year = None
    if which != "lifetime":
        if not words or not (words[0].isascii() and words[0].isdigit() and len(words[0]) == 4):
            refuse(f"plot {which} takes a year: office plot {which} YEAR [PICTURE.svg] < REPORT")
        year = int(words.pop(0))
    name = words[0] if words else f"{which}-{year}.svg" if year else f"{which}.svg"
    if len(words) > 1 or name != "-" and not name.endswith(".svg"):
        refuse("a picture is a file whose name ends in .svg, or - for text")
    main(which, year, name)
    return 0
