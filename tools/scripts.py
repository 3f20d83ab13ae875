"""Lines of a script, their replies, and the terms of the definitions that stand for them."""
import datetime
import re

RULES = """InOffering Credits NotApplicable Expired UsedUp MustUse CourseFull OfferingFull OfferingReserved
ConfigFull ConfigReserved NotIncluded Restricted Cancelled Parent SectionFull SectionReserved Overlap FreeTime
NotAsked""".split()
TODAY = '2025-09-01'


def day(text):
    return (datetime.date.fromisoformat(text) - datetime.date(1970, 1, 1)).days


def terms(items):
    """A list."""
    return '(' + ' ∷ '.join(list(items) + ['[]']) + ')' if items else '[]'


def numbers(text):
    return terms([] if text == '-' else text.split('+'))


def option(text, term=str):
    return 'None' if text == '-' else f'(Some {term(text)})'


def limit(text):
    return 'Unlimited' if text == '-' else f'(Places {text})'


def truth(value):
    return 'true' if value else 'false'


def meeting(text):
    days, times, weeks = text.split('/')
    first, last = [(int(t[:2]) * 60 + int(t[2:])) // 5 for t in times.split('-')]
    mask = 0
    for part in weeks.split('.'):
        ends = part.split('-')
        for week in range(int(ends[0]), int(ends[-1]) + 1):
            mask |= 1 << (week - 1)
    return f"(meets {sum(1 << 'MTWRFSU'.index(c) for c in days)} {first} {last - first} {mask})"


def meetings(text):
    return terms([] if text == '-' else [meeting(m) for m in text.split('+')])


def curriculum(text):
    area, class_, majors = text.split(':')
    return f'curriculum {area} {class_} {numbers(majors)}'


def audience(text):
    kind, *rest = text.split(':')
    if kind == 'students':
        return f'(students {numbers(rest[0])})'
    if kind == 'group':
        return f'(group {rest[0]})'
    if kind == 'curriculum':
        return f'(curricula {rest[0]} {numbers(rest[1])} {numbers(rest[2])})'
    return f'(course_audience {rest[0]})'


def want(words):
    courses, only, rank = words.pop(0), '-', '21'
    if words and words[0] == 'only':
        words.pop(0)
        only = words.pop(0)
    if words and words[0] == 'rank':
        words.pop(0)
        rank = words.pop(0)
    if only == '-' and rank == '21' and courses.isdigit():
        return f'(any_of {courses})'
    return f'(want {numbers(courses)} {numbers(only)} {rank})'


def budget(words):
    if words and words[0] == 'budget':
        return words[1]
    return '2000'


def offering(words):
    name, courses, configs = words.pop(0), [], []
    while words:
        kind = words.pop(0)
        if kind == 'course':
            a, b, c = [words.pop(0) for _ in range(3)]
            courses.append(f'course {a} {limit(b)} {c}')
        elif kind == 'config':
            configs.append([words.pop(0), words.pop(0), []])
        elif kind == 'subpart':
            configs[-1][2].append([words.pop(0), []])
        else:
            a, b, p, m = [words.pop(0) for _ in range(4)]
            configs[-1][2][-1][1].append((a, b, p, m))
    if len(courses) == 1 and courses[0] == f'course {name} Unlimited 3' and len(configs) == 1:
        g = configs[0]
        if g[:2] == [name, '-'] and len(g[2]) == 1 and g[2][0][0] == name and len(g[2][0][1]) == 1 and g[2][0][1][0][2] == '-':
            a, b, _, m = g[2][0][1][0]
            return f'one_section {name} {a} {limit(b)} {meetings(m)}'

    def section(s):
        return f'section {s[0]} {limit(s[1])} {option(s[2])} {meetings(s[3])}'

    def subpart(p):
        return f'subpart {p[0]} {terms([section(s) for s in p[1]])}'
    rows = [f'config {a} {limit(b)} {terms([subpart(p) for p in ps])}' for a, b, ps in configs]
    return f'offering {name} {terms(courses)} {terms(rows)}'


def reserve(words):
    name, of, who, places, expiry = [words.pop(0) for _ in range(5)]
    term = f'reservation {name} {of} {audience(who)} {limit(places)}'
    configs, sections, first, flags = [], [], '-', []
    while words:
        kind = words.pop(0)
        if kind == 'from':
            first = words.pop(0)
        elif kind == 'config':
            configs.append(words.pop(0))
        elif kind == 'section':
            sections.append(words.pop(0))
        else:
            flags.append({'over': 'over_limit', 'overlap': 'overlapping', 'must': 'obligatory'}[kind])
    if configs or sections:
        term = f'listing {terms(configs)} {terms(sections)} ({term})'
    if first != '-':
        term = f'from {day(first)} ({term})'
    if expiry != '-':
        term = f'until {day(expiry)} ({term})'
    for flag in flags:
        term = f'{flag} ({term})'
    return f'Reserve ({term})'


def requests(words):
    name, asks = words.pop(0), []
    while words:
        if words.pop(0) == 'free':
            asks.append(f'Free {meeting(words.pop(0))}')
            continue
        courses, wait, substitute = words.pop(0), False, False
        if words and words[0] == 'wait':
            words.pop(0)
            wait = True
        if words and words[0] == 'substitute':
            words.pop(0)
            substitute = True
        asks.append(f'ask {numbers(courses)} {truth(wait)} {truth(substitute)}')
    return f'requests {name} {terms(asks)}'


def restrict(words):
    name, of, who = [words.pop(0) for _ in range(3)]
    listed = {'config': [], 'section': []}
    while words:
        kind = words.pop(0)
        listed[kind].append(words.pop(0))
    return f"restrict {name} {of} {audience(who)} {terms(listed['config'])} {terms(listed['section'])}"


def student(words):
    name, _, most = [words.pop(0) for _ in range(3)]
    groups, curricula = [], []
    while words:
        if words.pop(0) == 'group':
            groups.append(words.pop(0))
        else:
            curricula.append(curriculum(words.pop(0)))
    return f'put_student {name} {most} {terms(groups)} {terms(curricula)}'


def swap(words):
    name, give, take = words.pop(0), [], []
    while words and words[0] in ('give', 'take'):
        if words.pop(0) == 'give':
            give.append(words.pop(0))
        else:
            take.append(want(words))
    return f'swap {name} {terms(give)} {terms(take)} {budget(words)}'


def wait(words):
    name, term, give, class_ = words.pop(0), want(words), '-', '5'
    if words and words[0] == 'give':
        words.pop(0)
        give = words.pop(0)
    if words and words[0] == 'class':
        words.pop(0)
        class_ = words.pop(0)
    return f'wait {name} {term} {option(give)} {class_}'


def enrol(words):
    name = words.pop(0)
    term = want(words)
    return f'enrol {name} {term} {budget(words)}'


COMMANDS = {
    'offering': offering, 'student': student, 'requests': requests, 'reserve': reserve, 'restrict': restrict,
    'enrol': enrol, 'swap': swap, 'wait': wait,
    'unreserve': lambda w: f'Unreserve (record {{ 0 = {w[0]} }})',
    'unrestrict': lambda w: f'Unrestrict (record {{ 0 = {w[0]} }})',
    'expire': lambda w: f'Expire (record {{ 0 = {w[0]} }}) {option(w[1], lambda t: str(day(t)))}',
    'limit': lambda w: f'SetLimit (cap_{w[0]} ({w[0]}_id {w[1]})) {limit(w[2])}',
    'cancel': lambda w: f'Cancel (section_id {w[0]})',
    'drop': lambda w: f'drop {w[0]} {w[1]}',
    'unwait': lambda w: f'unwait {w[0]} {w[1]}',
    'batch': lambda w: f'batch {numbers(w[0])}',
}


def command(text):
    words = text.split()
    return COMMANDS[words.pop(0)](words)


def request(line):
    """`[@DAY] CALLER COMMAND` as a request."""
    words = line.split(' ')
    on = words.pop(0)[1:] if words[0][0] == '@' else TODAY
    who = words.pop(0)
    term = ('registrar' if who[0] == 'r' else f'student {who[1:]}') + f" ({command(' '.join(words))})"
    if who[0] == 'r' and who != 'r1':
        term = f"record {{ day = today; caller = Registrar {who[1:]}; command = {command(' '.join(words))} }}"
    return term if on == TODAY else f'on {day(on)} ({term})'


def tree(text):
    def at(k):
        if text[k] != '[':
            leaf = re.match(r'(\d+):(\d+)', text[k:])
            return f'leaf {RULES[int(leaf[1]) - 1]} {leaf[2]}', k + leaf.end()
        trees = []
        if text[k + 1] == ']':
            return 'each []', k + 2
        while text[k] != ']':
            term, k = at(k + 1)
            trees.append(term)
        return f'each {terms(trees)}', k + 1
    term, end = at(0)
    assert end == len(text)
    return f'({term})'


def choice(text):
    c, r, g, ss = text.split('/')
    return f'(choice {c} {option(r)} {g} {numbers(ss)})'


def refusal(words):
    name = words.pop(0)
    if name == 'Row':
        kind, fault = words.pop(0), words.pop(0)
        if fault in ('Known', 'TooMany'):
            fault = f'{kind}_{fault}'
        term = f'({fault} {words[0]})' if words else fault
        return f'Refused (Row ({kind}_fault {term}))'
    if name == 'NotEnrolled':
        return f'Refused (NotEnrolled (course_id {words[0]}))'
    return f'Refused ({name} {words[0]})' if words else f'Refused {name}'


def lines(words):
    found = []
    while words:
        who, rank = words.pop(0).split('.')
        kind = words.pop(0)
        if kind == 'met':
            result = f'(Met {choice(words.pop(0))})'
        elif kind == 'held':
            result = f'(Held (course_id {words.pop(0)}))'
        elif kind == 'blocked':
            visits = words.pop(0)
            result = f'(line_blocked {visits} {tree(words.pop(0))})'
        elif kind == 'waiting':
            result = f'(line_waiting {words.pop(0)})'
        else:
            result = {'spent': 'line_spent', 'skipped': 'Skipped'}[kind]
        found.append(f'line {who} {rank} {result}')
    return terms(found)


def reply(text):
    words = text.split()
    kind = words.pop(0)
    if kind == 'amended':
        return 'Amended'
    if kind == 'enrolled':
        return f'Enrolled {choice(words[0])}'
    if kind == 'dropped':
        return f'Dropped (course_id {words[0]})'
    if kind == 'swapped':
        return f'Swapped {terms([choice(w) for w in words])}'
    if kind == 'placed':
        return f'Placed {words[0]} {choice(words[1])}'
    if kind == 'blocked':
        return f'Blocked {words[0]} {tree(words[1])}'
    if kind == 'batched':
        return f'Batched {lines(words)}'
    if kind == 'refused':
        return refusal(words)
    return {'waiting': 'Waiting', 'spent': 'Spent'}[kind] + ' ' + words[0]


BASE, MODEL, COMMAND = 'Rattle.sect_base.specs', 'Rattle.sect_model.specs', 'Rattle.sect_command.specs.declared'
DECLARED = {
    f'{BASE}.declared.limit.Limit.TheVariants': 'Unlimited Places',
    f'{BASE}.declared.limit.Caller.TheVariants': 'Registrar',
    f'{BASE}.declared.limit.Cap.TheVariants': 'Course:cap_course Config:cap_config Section:cap_section',
    f'{BASE}.declared.rule.Rule.TheVariants': ' '.join(RULES),
    'Rattle.sect_people.specs.declared.row.Ask.TheVariants': 'Free',
    'Rattle.sect_catalog.specs.declared.row.CatalogFault.TheVariants':
        'Known:offering_Known NoCourse NoConfig NoSubpart NoSection BadParent TooMany:offering_TooMany',
    'Rattle.sect_people.specs.declared.row.RequestFault.TheVariants': 'UnknownCourse Twice TooMany:request_TooMany',
    'Rattle.sect_reserve.specs.declared.row.ReserveFault.TheVariants':
        'Known:reserve_Known Foreign NoGroup TooMany:reserve_TooMany',
    f'{COMMAND}.command.Command.TheVariants': 'Reserve Unreserve Expire Unrestrict SetLimit Cancel',
    f'{COMMAND}.reply.Reply.TheVariants':
        'Amended Enrolled Dropped Swapped Waiting Placed Batched Blocked Spent Refused',
    f'{COMMAND}.reply.LineResult.TheVariants':
        'Met Held Blocked:line_blocked Spent:line_spent Waiting:line_waiting Skipped',
    f'{COMMAND}.reply.Refusal.TheVariants':
        'NotYours Unknown EmptyWant TooMany NotEnrolled WaitingAlready NotWaiting LimitBelow InUse Row',
    f'{COMMAND}.reply.RowFault.TheVariants': 'Offering:offering_fault Request:request_fault Reserve:reserve_fault',
    f'{MODEL}.Script': """Request Answers Looks Covering state_after today registrar student on course_id config_id section_id
        student_id reservation_id offering_id course section subpart config offering one_section meets curriculum
        put_student students group curricula course_audience reservation from until listing over_limit overlapping
        obligatory restrict ask requests want any_of enrol drop swap wait unwait batch choice leaf each line held""",
    'Rattle.std.specs.Prelude': '◌≡◌ ℕ true false List [] ◌∷◌ Some None pos',
}
LAYERS = 'step refusal_of batch_of settle outcome_of is_allowed leaf_of meetings_overlap some_below'.split()
LAYER_FILES = {
    f'{MODEL}.Step': 'step', f'{MODEL}.Refusals': 'refusal_of', f'{MODEL}.Batch': 'batch_of', f'{MODEL}.Settle': 'settle',
    f'{MODEL}.Outcome': 'outcome_of', f'{MODEL}.Allowed': 'is_allowed', f'{MODEL}.Rules': 'leaf_of',
    'Rattle.sect_base.specs.Pattern': 'meetings_overlap some_below',
}


def imports(text, more=None):
    """The `use` lines for the words that stand in the text. Those of comments, and the names of fields, are none of them."""
    text = re.sub(r'^--.*|\w+ = ', '', text, flags=re.M)
    words = set(re.findall(r'[\w]+', text))
    found = []
    for module, names in {**DECLARED, **(more or {})}.items():
        kept = []
        for name in names.split():
            plain, _, alias = name.partition(':')
            mark = plain.strip('◌') if '◌' in plain or plain == '[]' else None
            if (mark in text) if mark else ((alias or plain) in words):
                kept.append(f'{plain} as {alias}' if alias else plain)
        if kept:
            found.append(f"use {module}.{{{', '.join(kept)}}}")
    return '\n'.join(sorted(found)) + '\n'
