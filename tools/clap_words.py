"""What `clap` finds in the words of the command line, and whether that is what the desk's items say, for the answers of
test_usage. A second computation of both, by the grammar that `clap` is told of."""

KEPT = ("db", "journal")
# of each command: how many words may stand alone, how many must, its options, and the one that must stand
GRAMMAR = {
    "run": (0, 0, KEPT, None), "serve": (0, 0, (*KEPT, "port", "workers", "sessions"), "port"), "make": (1, 1, (), None),
    "audit": (0, 0, KEPT, None), "report": (2, 1, KEPT, None), "import": (1, 1, (*KEPT, "first", "term"), "first"),
    "export": (1, 1, KEPT, None), "plan": (1, 1, (*KEPT, "budget"), None), "survey": (0, 0, KEPT, None),
}


class Refused(Exception):
    """`clap` takes no such words."""


def is_option(word):
    return word.startswith("-") and word != "-"


def found_in(words):
    """The words that stand alone and the options that `clap` finds behind a command, or Refused."""
    most, least, names, needed = GRAMMAR[words[0]]
    alone, options, rest = [], {}, iter(words[1:])
    for word in rest:
        if word == "--":
            alone += rest
        elif not is_option(word):
            alone.append(word)
        else:
            name, equals, value = word[2:].partition("=")
            if not word.startswith("--") or name not in names or name in options:
                raise Refused
            options[name] = value if equals else next(rest, "--")
            if not equals and is_option(options[name]):
                raise Refused
    if not least <= len(alone) <= most or needed is not None and needed not in options or len(options.keys() & set(KEPT)) > 1:
        raise Refused
    return alone, options


def items_of(words):
    """The words that stand alone and the first value of each option, as the desk cuts words into items: what is neither
    is passed over."""
    alone, options, rest = [], {}, iter(words)
    for word in rest:
        if word[:1] not in ("", "-"):
            alone.append(word)
        elif word.startswith("--") and word != "--":
            name, equals, value = word[2:].partition("=")
            value = value if equals else next(rest, "")
            if name and value and (equals or not value.startswith("-")):
                options.setdefault(name, value)
    return alone, options


def finds_the_same(words):
    """Whether `clap` finds in the words what the desk's items say, or is asked for help or the version as the desk is."""
    if words in (["--help"], ["--version"]) or words[1:] == ["--help"] and words[0] in GRAMMAR:
        return True
    if words[:1] == [] or words[0] not in GRAMMAR:
        return False
    try:
        return found_in(words) == items_of(words[1:])
    except Refused:
        return False
