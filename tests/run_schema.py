#!/usr/bin/env python3
"""tests/run_schema.py: tries docs/scenario.schema.json, by which editors help with scenarios.

The examples and the scenarios of all cases are held against it: what the program reads has to be valid; what it refuses for a key, a value or a depth
(S2, S3, S4, S7) must not be, but for EXCEPTIONS, which a schema can't see. Of S1 and S6 a schema need not know. Then the format's tables are tried key by
key, and its values at their bounds; typical mistakes have to be reported where they stand, and nowhere else; and the schema is one of its draft, with a
sentence on each key.

It wants the Python package jsonschema (python3-jsonschema in Debian), and no program; without the package it says so and ends with 0. The last line is
'N passed, M failed', and the exit status is 1 where one failed.
"""
import json
import pathlib
import re
import sys
import tomllib

try:
    from jsonschema import exceptions, validators
except ImportError:
    validators = None

TOP = pathlib.Path(__file__).resolve().parent.parent
sys.path.insert(0, str(TOP / "tests"))
sys.dont_write_bytecode = True
from run_cases import cases  # noqa: E402

SCHEMA = TOP / "docs" / "scenario.schema.json"
READING = "check", "run", "stored", "asm", "list", "tree", "unverified"

# Cases that the program refuses by a value that a schema can't see, and why it can't.
UNDECLARED, FRACTION = "a schema compares no value with the names of other tables", "a schema takes 1.0 for a whole number"
EXCEPTIONS = {"check-bad-provides": UNDECLARED, "node 3": UNDECLARED, "signals 3": FRACTION}

# How the lines on standard error begin where a scenario's tables are wrong, and where they are right and something else is wrong.
WRONG = re.compile(rb"trade: (S[2347] |S5 NameTwice init$)", re.MULTILINE)
RIGHT = re.compile(rb"trade: (S[589]|S1\d|U\d|[\w-]+: [MCVB]\d+) |trade: no component |wrong ")

# Where the tables of the format stand in the schema, and the keys of all versions.
INTERFACE = "properties", "interface", "additionalProperties"
NODE = "properties", "start", "items"
ROUTE = "properties", "default-route", "items"
NODE_KEYS = "name quantum caps route start default-route offers provides after inputs signals program code"
ROUTE_KEYS = "service any-service child any-child parent"
TABLES = [
    ((), "version ram caps default-route interface start"),
    (INTERFACE, "arg reply need need-caps object upgrades upgrade-caps buffer"),
    (NODE, NODE_KEYS),
    ((*NODE, "properties", "start", "items"), NODE_KEYS),
    (ROUTE, ROUTE_KEYS),
    ((*NODE, "properties", "route", "items"), ROUTE_KEYS),
    ((*NODE, "properties", "default-route", "items"), ROUTE_KEYS),
]
OPTIONAL = {"default-route", "interface", "object", "upgrades", "upgrade-caps", "buffer", "route", "provides", "after", "inputs", "signals", "offers"}
# The keys that each version lacks.
LACKING = {1: {"caps", "need-caps", "upgrade-caps", "inputs", "offers", "signals"}, 2: {"inputs", "offers", "signals"}, 3: {"signals"}, 4: set()}

# Quantities: the place, the least value, the greatest one, and of what it is a multiple.
QUANTITIES = [
    (("properties", "ram"), 4096, 67108864, 4096),
    ((*INTERFACE, "properties", "need"), 0, 4294967295, 1),
    ((*INTERFACE, "properties", "object"), 0, 65536, 1),
    ((*INTERFACE, "properties", "upgrades", "items"), 0, 4294967295, 1),
    ((*INTERFACE, "properties", "buffer"), 0, 1048576, 1),
    ((*NODE, "properties", "quantum"), 0, 2**40, 1),
]
UNITS = {"": 1, "K": 2**10, "M": 2**20, "G": 2**30}
NO_QUANTITIES = ["", "K", "4k", "4 K", " 4K", "4K ", "K4", "4KK", "4KM", "-4", "+4", "4.0", "4.0K", "0x10", "1_000", "４", "1e3", -1, 1.5, True, [], {}]

# Numbers: the place, the least value and the greatest one.
NUMBERS = [
    (("properties", "version"), 1, 4),
    (("properties", "caps"), 1, 65536),
    ((*INTERFACE, "properties", "arg"), 0, 4294967295),
    ((*INTERFACE, "properties", "reply"), 0, 4294967295),
    ((*INTERFACE, "properties", "need-caps"), 0, 65536),
    ((*INTERFACE, "properties", "upgrade-caps", "items"), 0, 65536),
    ((*NODE, "properties", "caps"), 0, 65536),
    ((*NODE, "properties", "inputs", "items"), 0, 4294967295),
    ((*NODE, "properties", "signals"), 0, 3),
]

# Other values: the place, values that fit and values that don't.
NAMES = ["a", "-_azAZ09-_azAZ09"], ["", "a b", "a" * 17, "é", "a.b", 1, True, [], {}]
TRUE = [True], [False, 1, "true", []]
PARENT, ECHO, LEAF = {"any-service": True, "parent": True}, {"arg": 0, "reply": 0, "need": 0}, {"name": "a", "quantum": 0, "code": ""}
ROUTES = [[], [PARENT] * 64], [[1], [[PARENT]], PARENT, True, [PARENT] * 65]
VALUES = [
    ((), [], [[], 1, ""]),
    (("properties", "default-route"), *ROUTES),
    (("properties", "interface"), [{}, {f"e{n}": ECHO for n in range(64)}], [[], [ECHO], 1, {"a b": ECHO}, {"e": 1}, {f"e{n}": ECHO for n in range(65)}]),
    (INTERFACE, [ECHO], [[], 1, ""]),
    ((*INTERFACE, "properties", "upgrades"), [[], [0, "4K", 0]], [0, {}, ["4k"], [0, 0, 0, 0]]),
    ((*INTERFACE, "properties", "upgrade-caps"), [[], [0, 1, 65536]], [0, {}, ["1"]]),
    (NODE[:2], [[], [LEAF] * 64], [[1], [[]], LEAF, [LEAF] * 129]),
    (NODE, [LEAF], [[], 1, ""]),
    ((*NODE, "properties", "name"), NAMES[0], [*NAMES[1], "init"]),
    ((*NODE, "properties", "route"), *ROUTES),
    ((*NODE, "properties", "default-route"), *ROUTES),
    ((*NODE, "properties", "offers"), [{}, {"e": "a"}, {"e": "a", "f": "a"}], [[], ["a"], "a", 1, {"e": 1}, {"e": ["a"]}, {"a b": "a"}, {"": "a"}]),
    ((*NODE, "properties", "offers", "additionalProperties"), *NAMES),
    ((*NODE, "properties", "provides"), *NAMES),
    ((*NODE, "properties", "after"), *NAMES),
    ((*NODE, "properties", "inputs"), [[], [0, 1], [4294967295] * 8], [0, {}, "1", ["1"], [-1], [4294967296], [0] * 9]),
    ((*NODE, "properties", "program"), ["", "main\nend\n"], [1, True, []]),
    ((*NODE, "properties", "code"), ["", "00", "09afAF"], ["0", "000", "0g", " 00", 10, []]),
    (ROUTE, [PARENT], [[], 1, ""]),
    ((*ROUTE, "properties", "service"), *NAMES),
    ((*ROUTE, "properties", "any-service"), *TRUE),
    ((*ROUTE, "properties", "child"), *NAMES),
    ((*ROUTE, "properties", "any-child"), *TRUE),
    ((*ROUTE, "properties", "parent"), *TRUE),
]

# Typical mistakes: the text, and what has to be reported, where and with which words.
ONE, TWO, THREE, FOUR = ('version = 1\nram = "64K"\n', *(f'version = {it}\nram = "64K"\ncaps = 4\n' for it in (2, 3, 4)))
NODE_2, NODE_3, NODE_4 = (it + 'start = [{{ name = "a", quantum = 0, caps = 0, {} }}]' for it in (TWO, THREE, FOUR))
NODE_1, ROUTE_1 = ONE + 'start = [{{ name = "a", quantum = 0, {} }}]', ONE + "start = []\ndefault-route = [{{ {} }}]"
LOG, DEEP = "start = []\n[interface.log]\narg = 1\nreply = 1\nneed = 0\n", '{ name = "a", quantum = 0, caps = 0, start = [' * 5 + "] }" * 5
MISTAKES = [
    ('version = 1\nRAM = "64K"\nstart = []', [("", "'RAM'"), ("", "'ram'")]),
    (ONE.replace("K", "k") + "start = []", [("ram", "'64k'")]),
    (ONE.replace("64K", "65K") + "start = []", [("ram", "'65K'")]),
    (ONE.replace("64K", "65M") + "start = []", [("ram", "'65M'")]),
    ("version = 5\nram = 4096\ncaps = 4\nstart = []", [("version", "5"), ("caps", "in version 1")]),
    ("ram = 4096\ncaps = 4\nstart = []", [("", "'version'"), ("caps", "in version 1")]),
    (TWO.replace("caps = 4", "") + "start = []", [("", "'caps'")]),
    (THREE.replace("caps = 4", "") + "start = []", [("", "'caps'")]),
    (FOUR.replace("caps = 4", "") + "start = []", [("", "'caps'")]),
    (ONE + "default_route = []\nstart = []", [("", "'default_route'")]),
    (ONE + LOG.replace("interface", "interfaces"), [("", "'interfaces'")]),
    (ONE + LOG.replace("log", '"a b"'), [("interface", "'a b'")]),
    (ONE + LOG + "upgrades = [0, 0, 0, 0]", [("interface.log.upgrades", "")]),
    (ONE + LOG + "need-caps = 1", [("interface.log.need-caps", "in version 1")]),
    (TWO + LOG, [("interface.log", "'need-caps'")]),
    (THREE + LOG, [("interface.log", "'need-caps'")]),
    (FOUR + LOG, [("interface.log", "'need-caps'")]),
    (TWO + LOG + "need_caps = 1", [("interface.log", "'need_caps'"), ("interface.log", "'need-caps'")]),
    (TWO + LOG + "need-caps = 1\nupgrade-caps = [1]", [("interface.log.upgrade-caps", "")]),
    (TWO + 'start = [{ name = "a", quantum = 0, cap = 4, start = [] }]', [("start.0", "'cap'"), ("start.0", "'caps'")]),
    (TWO + f"start = [{DEEP}]", [("start" + ".0.start" * 4, "")]),
    (ONE + f"start = [{DEEP.replace('caps = 0, ', '')}]", [("start" + ".0.start" * 4, "")]),
    (NODE_1.format("start = [{ name = 1, quantum = 0, code = '' }]"), [("start.0.start.0.name", "1")]),
    (NODE_1.format("code = ''").replace('"a"', '"a b"'), [("start.0.name", "'a b'")]),
    (NODE_1.format("code = ''").replace('"a"', '"init"'), [("start.0.name", "'init'")]),
    (NODE_1.format("caps = 1, start = []"), [("start.0.caps", "in version 1")]),
    (NODE_1.format("after = 'b', start = []"), [("start.0.after", "on an init")]),
    (NODE_1.format("default-route = [], program = ''"), [("start.0.default-route", "on a leaf")]),
    (NODE_1.format("inputs = [1], code = ''"), [("start.0.inputs", "in version 1")]),
    (NODE_2.format("inputs = [1], code = ''"), [("start.0.inputs", "in version 2")]),
    (NODE_3.format("input = [1], code = ''"), [("start.0", "'input'")]),
    (NODE_3.format("inputs = [1], start = []"), [("start.0.inputs", "on an init")]),
    (NODE_3.format("inputs = 1, code = ''"), [("start.0.inputs", "1")]),
    (NODE_3.format("inputs = [1, 4294967296], code = ''"), [("start.0.inputs.1", "4294967296")]),
    (NODE_3.format("inputs = [1, 1, 1, 1, 1, 1, 1, 1, 1], code = ''"), [("start.0.inputs", "")]),
    (NODE_3.format("inputs = [1], code = ''").replace("caps = 0, ", ""), [("start.0", "'caps'")]),
    (NODE_1.format("signals = 1, code = ''"), [("start.0.signals", "in version 1")]),
    (NODE_2.format("signals = 1, code = ''"), [("start.0.signals", "in version 2")]),
    (NODE_3.format("signals = 0, code = ''"), [("start.0.signals", "in version 3")]),
    (NODE_4.format("signal = 1, code = ''"), [("start.0", "'signal'")]),
    (NODE_4.format("signals = 1, start = []"), [("start.0.signals", "on an init")]),
    (NODE_4.format("signals = 4, code = ''"), [("start.0.signals", "4")]),
    (NODE_4.format("signals = [1], code = ''"), [("start.0.signals", "[1]")]),
    (NODE_4.format("signals = 1, code = ''").replace("caps = 0, ", ""), [("start.0", "'caps'")]),
    (NODE_1.format("offers = {}, start = []"), [("start.0.offers", "in version 1")]),
    (NODE_2.format("offers = { log = 'b' }, start = []"), [("start.0.offers", "in version 2")]),
    (NODE_3.format("offers = {}, code = ''"), [("start.0.offers", "on a leaf")]),
    (NODE_3.format("offer = {}, start = []"), [("start.0", "'offer'")]),
    (NODE_3.format("offers = ['log'], start = []"), [("start.0.offers", "['log']")]),
    (NODE_3.format("offers = { log = 1 }, start = []"), [("start.0.offers.log", "1")]),
    (NODE_3.format("offers = { log = 'a b' }, start = []"), [("start.0.offers.log", "'a b'")]),
    (NODE_3.format("offers = { 'a b' = 'b' }, start = []"), [("start.0.offers", "'a b'")]),
    (THREE + "start = []\noffers = {}", [("", "'offers'")]),
    (NODE_1.format("provides = 'log'"), [("start.0", "'program'")]),
    (NODE_1.format("program = '', code = '00'"), [("start.0.code", "beside program")]),
    (NODE_1.format("code = '0'"), [("start.0.code", "'0'")]),
    (ROUTE_1.format("service = 'log', any-service = true, parent = true"), [("default-route.0.any-service", "beside service")]),
    (ROUTE_1.format("service = 'log', child = 'a', any-child = true"), [("default-route.0.any-child", "beside child")]),
    (ROUTE_1.format("service = 'log', child = 'a', parent = true"), [("default-route.0.parent", "beside child")]),
    (ROUTE_1.format("service = 'log', any-child = true, parent = true"), [("default-route.0.parent", "beside any-child")]),
    (ROUTE_1.format("service = 'log', parent = false"), [("default-route.0.parent", "")]),
    (ROUTE_1.format("service = 'log'"), [("default-route.0", "'child'")]),
    (ROUTE_1.format("parent = true"), [("default-route.0", "'service'")]),
]


def part(schema, steps):
    """The part of the schema to which these steps lead."""
    found = schema
    for step in steps:
        found = found[step]
        if "$ref" in found:
            found = schema["definitions"][found["$ref"].removeprefix("#/definitions/")]
    return found


def part_validator(schema, steps):
    """What judges values by this part of the schema."""
    return validators.validator_for(schema)({**part(schema, steps), "definitions": schema["definitions"]})


def as_text(values):
    """Some values for a line that says what failed; nothing where there are none."""
    return ", ".join(map(repr, values))[:400]


def document(text):
    """The tables of a text; None where it is no TOML. Lines of an inline table, which TOML 1.1 has, are joined, since tomllib may read TOML 1.0."""
    for it in (text, text.replace(",\n", ", ")):
        try:
            return tomllib.loads(it)
        except tomllib.TOMLDecodeError:
            pass
    return None


def scenario_in(command, text):
    """The scenario in the text of a case: what is stored with its turns ends before the first line `%%`."""
    return re.split(rb"^%%\r?$", text, maxsplit=1, flags=re.MULTILINE)[0] if command == "stored" else text


def is_right(stderr, status):
    """Whether the tables of a scenario are right, by what its case wants; None where that does not say."""
    if WRONG.match(stderr):
        return False
    return True if status == 0 or RIGHT.match(stderr) else None


def reports(validator, tables):
    """Where the schema reports something in these tables, and its message."""
    return sorted((".".join(map(str, error.absolute_path)), error.message) for error in validator.iter_errors(tables))


def problem_of(validator, name, tables, right):
    """What is wrong with the schema's judgement of a case; nothing where all is well."""
    if tables is None:
        return "this is no TOML"
    found = reports(validator, tables)
    if name in EXCEPTIONS:
        return "this is no exception" if right or found else ""
    if right:
        return as_text(found)
    return "" if found else "the program refuses what is valid"


def of_cases(schema):
    """The examples and cases whose scenario is right or wrong."""
    validator, left = part_validator(schema, ()), set(EXCEPTIONS)
    for name, command, scenario, _, (_, stderr, status) in cases():
        word = command.split(" ")[0] if isinstance(command, str) else ""
        right = is_right(stderr, status)
        if word in READING and right is not None:
            left.discard(name)
            yield name, problem_of(validator, name, document(scenario_in(word, scenario).decode()), right)
    for name in sorted(left):
        yield f"the exception {name}", "there is no such case"


def of_itself(schema):
    """The schema as one of its draft."""
    draft = validators.validator_for(schema, default=None)
    problem = "" if draft else "its draft is not known"
    try:
        (draft or validators.Draft7Validator).check_schema(schema)
    except exceptions.SchemaError as error:
        problem = error.message
    yield "the schema", problem


def of_descriptions(schema):
    """The keys of each table, each described in a sentence."""
    for steps, keys in TABLES:
        found = part(schema, steps)["properties"]
        bad = set(keys.split()) ^ set(found)
        bad |= {key for key in found if not re.fullmatch(r"[A-Z][^.\n]+\.", part(schema, (*steps, "properties", key)).get("description", ""))}
        yield f"the descriptions of {keys}", as_text(sorted(bad))


def nodes(depth):
    """Two nodes at this depth, which have all keys of a node."""
    node = {"name": f"a{depth}", "quantum": 0, "caps": 0, "route": []}
    init = {**node, "start": nodes(depth + 1) if depth < 4 else [], "default-route": [], "offers": {}}
    return [{**node, "provides": "e", "after": "a", "inputs": [], "signals": 0, "program": ""}, init]


def without(value, keys):
    """A copy of a document that lacks these keys."""
    if isinstance(value, dict):
        return {key: without(it, keys) for key, it in value.items() if key not in keys}
    return [without(it, keys) for it in value] if isinstance(value, list) else value


def whole(version):
    """A document whose tables have all keys that they may have in this version."""
    interface = {**ECHO, "need-caps": 0, "object": 0, "upgrades": [], "upgrade-caps": [], "buffer": 0}
    routes = [{"service": "e", "child": "a"}]
    tables = {"version": version, "ram": 4096, "caps": 1, "default-route": routes, "interface": {"e": interface}, "start": nodes(1)}
    return without(tables, LACKING[version])


def tables_in(value):
    """The tables of a document, from this one down; the table of all interfaces has names for its keys."""
    for key, it in value.items():
        for below in it.values() if key == "interface" else it if isinstance(it, list) else ():
            yield from tables_in(below)
    yield value


def of_keys(schema):
    """Tables that have all their keys are valid, without one that is required they are not, and not with one more, whose value fits elsewhere."""
    validator = part_validator(schema, ())
    values = {**LEAF, **PARENT, "any-child": True, "colour": 0} | {key: value for table in tables_in(whole(4)) for key, value in table.items()}
    for version in LACKING:
        tables = whole(version)
        yield f"all keys of version {version}", as_text(reports(validator, tables))
        for table in tables_in(tables):
            bad = []
            for key in sorted(table):
                value = table.pop(key)
                bad += [f"without {key}"] if validator.is_valid(tables) != (key in OPTIONAL) else []
                table[key] = value
            for key in sorted(set(values) - set(table)):
                table[key] = values[key]
                bad += [f"with {key}"] if validator.is_valid(tables) else []
                del table[key]
            yield f"the keys {' '.join(table)}", as_text(bad)


def of_upgrades(schema):
    """An interface has capabilities for none of its upgrades, or for each."""
    validator = part_validator(schema, ())
    for version, upgrades in ((version, upgrades) for version in (2, 3, 4) for upgrades in (None, 0, 1, 2, 3)):
        bad = []
        for caps in (None, 0, 1, 2, 3, 4):
            given = {"upgrades": upgrades, "upgrade-caps": caps}
            tables = whole(version)
            tables["interface"] = {"e": {**ECHO, "need-caps": 0, **{key: [1] * count for key, count in given.items() if count is not None}}}
            bad += [f"{caps} capabilities"] if validator.is_valid(tables) != (caps in (None, upgrades or 0)) else []
        yield f"{upgrades} upgrades in version {version}", as_text(bad)


def bytes_of(value):
    """The bytes that a quantity stands for; None where the value is none."""
    found = re.fullmatch("([0-9]+)([KMG]?)", value) if isinstance(value, str) else None
    if found:
        value = int(found[1]) * UNITS[found[2]]
    return value if type(value) is int and 0 <= value <= 2**40 else None


def numbers(bound):
    """Decimal numbers below and above this one: a digit of it is another one, and all that follow are 0 or 9; it is longer; or it has leading zeros."""
    digits = str(bound)
    for place, rest in ((place, rest) for place in range(len(digits)) for rest in "09"):
        for digit in "0123456789":
            yield digits[:place] + digit + rest * (len(digits) - place - 1)
    yield from (digits, digits + "0", "1" + digits, "000" + digits)


def quantities(least, greatest):
    """Values around the bounds, and values that are no quantities."""
    texts = {number + suffix for bound in (least, greatest) for suffix, unit in UNITS.items() for number in numbers(bound // unit)}
    near = {bound + step for bound in (least, greatest) for step in (-4096, -1, 0, 1, 4096)}
    return [*NO_QUANTITIES, *sorted(near), *sorted(texts)]


def of_quantities(schema):
    """The quantities, each by itself. Of a `ram` in bare digits a schema can't see whether it is a multiple of 4096."""
    for steps, least, greatest, multiple in QUANTITIES:
        validator, bad = part_validator(schema, steps), []
        for value in quantities(least, greatest):
            found = bytes_of(value)
            fits = found is not None and least <= found <= greatest
            unseen = fits and found % multiple != 0 and isinstance(value, str) and value.isdigit()
            bad += [value] if validator.is_valid(value) != (fits and found % multiple == 0) and not unseen else []
        yield f"the quantity {'.'.join(steps)}", as_text(bad)


def of_values(schema):
    """Numbers and other values, each by itself."""
    of_numbers = [(steps, [least, greatest], [least - 1, greatest + 1, str(least), 1.5, True, []]) for steps, least, greatest in NUMBERS]
    for steps, good, wrong in (*of_numbers, *VALUES):
        fits = part_validator(schema, steps).is_valid
        yield f"the values of {'.'.join(steps) or 'a text'}", as_text([it for it in good if not fits(it)] + [it for it in wrong if fits(it)])


def of_mistakes(schema):
    """Mistakes, each reported where it stands and nowhere else."""
    validator = part_validator(schema, ())
    for text, wanted in MISTAKES:
        found = reports(validator, document(text))
        passes = len(found) == len(wanted) and all(any(place == at and words in message for at, message in found) for place, words in wanted)
        yield repr(text), "" if passes else as_text(found) or "nothing is reported"


def main():
    if validators is None:
        print("tests/run_schema.py: the Python package jsonschema is not installed, so nothing is checked")
        return 0
    schema = json.loads(SCHEMA.read_text(encoding="utf-8"))
    passed = failed = 0
    for checks in (of_itself, of_descriptions, of_keys, of_upgrades, of_quantities, of_values, of_mistakes, of_cases):
        for name, problem in checks(schema):
            if problem:
                failed += 1
                print(f"FAILED {name}: {problem}")
            else:
                passed += 1
    print(f"{passed} passed, {failed} failed")
    return 1 if failed else 0


if __name__ == "__main__":
    sys.exit(main())
