"""What a second computation of the desk in Python answers to the lists of words of test_usage: each line is a list with bars
between the words, and `(none)` is the list without words; its answer ends with what `clap` finds. The second computation's folder
is among those of modules."""
import app
import clap_words
import word_lists

COMMANDS = ("run", "serve", "make", "audit", "report", "import", "export", "plan", "survey")


def asked(words):
    """What the words ask for, as the program prints it, and their options; BadWords where they ask for nothing."""
    if words[:1] not in ([command] for command in (*COMMANDS, "--help", "--version")):
        raise app.BadWords
    if app.asks_help(words):
        lone = {"--help": "Help(Desk)", "--version": "Version"}
        return lone.get(words[0], f"Help(Command({words[0].capitalize()}))"), {}
    command, positionals, options = app.parse(words)
    if "rows" in options:                                # the second computation's own
        raise app.BadWords
    if command == "make":
        return f"Make({positionals[0]})", options
    if command == "export":
        return f"Export({positionals[0].capitalize()})", options
    if command == "report":
        kinds = {"roll": "Roll(SectionId(%d))", "open": "Open(OfferingId(%d))", "schedule": "Schedule(StudentId(%d))"}
        kind = positionals[0]
        return f"Report({kinds[kind] % positionals[1] if kind in kinds else kind.capitalize()})", options
    if command == "import":
        term = f"Some(Day({options['term']}))" if "term" in options else "None"
        return f"Import {{ table: {positionals[0].capitalize()}, first: {options['first']}, term: {term} }}", options
    if command == "serve":
        workers, sessions = options.get("workers", 4), options.get("sessions", 1_000_000)
        return f"Serve {{ port: {options['port']}, workers: {workers}, sessions: {sessions} }}", options
    if command == "plan":
        budget = f"Budget {{ nodes: {options.get('budget', 2_000)} }}"
        return f"Plan {{ student: StudentId({positionals[0]}), budget: {budget} }}", options
    return command.capitalize(), options


def answers(lines):
    for line in lines:
        words = [] if line == "(none)" else line.split("|")
        found = "the same" if clap_words.finds_the_same(words) else "another"
        try:
            text, options = asked(words)
        except app.BadWords:
            yield f"None bad words, {found}\n"
            continue
        keeper = [f" {name} {options[name]}" for name in ("db", "journal") if name in options]
        yield f"Some({text}){''.join(keeper)}, {found}\n"


def fuzzed(seed):
    """Lists of words."""
    import fuzz
    lists = fuzz.word_lists(seed, 60) + word_lists.word_lists(seed, 60)
    return "".join("|".join(words) + "\n" for words in lists if words and not any("|" in word for word in words))
