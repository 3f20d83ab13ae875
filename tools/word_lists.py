"""Random lists of words for the command line, good and bad, for the input of test_usage."""
import random

COMMANDS = ("run", "serve", "make", "audit", "report", "import", "export", "plan", "survey")
TABLES = ("offerings", "students", "requests", "reservations")
OPTIONS = {
    "make": [], "import": ["first", "term", "db", "journal"], "serve": ["port", "workers", "sessions", "db", "journal"],
    "plan": ["budget", "db", "journal"],
}
VALUES = {
    "first": ["0", "1", "18446744073709551615", "18446744073709551616", "00", "12a", "99999999999999999999"],
    "term": ["2025-09-01", "1970-01-01", "2199-12-31", "2200-01-01", "2025-02-29", "2024-02-29", "x", "2025-9-1"],
    "db": ["f", "a=b", "=", "-x", "", "\u00e9", "--", "4294967297"],
    "journal": ["f", "-", "g"],
    "port": ["8080", "1", "65535", "65536", "0", "x", "080"],
    "workers": ["1", "64", "65", "0"],
    "sessions": ["1", "1000000", "1000001", "0"],
    "budget": ["1", "20000", "20001", "0", "12"],
}
POSITIONALS = {
    "make": ["1", "100", "101", "0", "7", "01"],
    "plan": ["11", "0", "4294967295", "4294967296", "x", "01"],
    "import": list(TABLES) + ["tables"],
    "export": list(TABLES) + ["tables", ""],
    "report": ["waiting", "unmet", "roll", "open", "schedule", "rows"],
}
STRAY = ["--help", "--", "-d", "", "--=x", "--db=", "--db", "-", "--version", "=", "--port"]


def positionals(random_one, command):
    """The words that stand alone behind a command, at times too many or none."""
    if command not in POSITIONALS or random_one.random() > 0.9:
        return []
    words = [random_one.choice(POSITIONALS[command])]
    if words[0] in ("roll", "open", "schedule") and random_one.random() < 0.9:
        words.append(random_one.choice(["7", "0", "4294967295", "4294967296", "00"]))
    if random_one.random() < 0.08:
        words.append("extra")
    return words


def option_names(random_one, command):
    """The options behind a command, at times a foreign one or one twice."""
    names = list(OPTIONS.get(command, ["db", "journal"]))
    if random_one.random() < 0.1:
        names += ["port", "first", "verbose"]
    if "db" in names and random_one.random() < 0.9:
        names.remove(random_one.choice(["db", "journal"]))
    if names and random_one.random() < 0.15:
        names.append(random_one.choice(names))
    random_one.shuffle(names)
    names = names[:random_one.randrange(len(names) + 1)]
    if command == "import" and "first" not in names and random_one.random() < 0.8:
        names.append("first")
    return names


def word_list(random_one):
    command = random_one.choice(COMMANDS)
    parts = [positionals(random_one, command)]
    for name in option_names(random_one, command):
        values = VALUES.get(name, ["1"])
        value = values[0] if random_one.random() < 0.7 else random_one.choice(values)
        parts.append([f"--{name}={value}"] if random_one.random() < 0.5 else ["--" + name, value])
    random_one.shuffle(parts)
    words = [command] + [word for part in parts for word in part]
    if random_one.random() < 0.1:
        words.insert(random_one.randrange(len(words) + 1), random_one.choice(STRAY))
    return words


def word_lists(seed, count):
    random_one = random.Random(seed)
    return [word_list(random_one) for _ in range(count)]
