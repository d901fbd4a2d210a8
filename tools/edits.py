"""The must-fail edits of a crate: what each changes, and within which functions.

An edit is a file with lines `file: src/lib.rt`, `old: TEXT` and `new: TEXT`, as `rt must-fail` reads it; each text stands in the file once, and further pairs
apply to what the earlier ones made. Where its text is not within a body, a line `function: leaf::Leaf::said` may say which function it is for.
"""
import dataclasses
import os
import pathlib
import re

FUNCTION = re.compile(r"( *)(?:pub(?:\([^)]*\))? )?(?:(?:const|unsafe|extern \"C\") )*fn (\w+)")
IMPL = re.compile(r"( *)impl\b")


@dataclasses.dataclass
class Edit:
    """A must-fail edit: its file, the texts that it changes in which files, and the functions within whose bodies they stand (none where one does not).

    One that is not within bodies may still have functions: those that it says it is for.
    """

    path: pathlib.Path
    pairs: list
    functions: set
    is_within_bodies: bool = True

    @property
    def name(self):
        return f"{self.path.parent.parent.name}/{self.path.name}"


class BadEdit(Exception):
    """An edit that can't be applied."""


def read_edit(path, sources):
    """The edit of a file, for a crate whose sources lie in a folder."""
    file, old, pairs, declared = None, None, [], set()
    for line in path.read_text(encoding="utf-8").split("\n"):
        if line.startswith("function: "):
            declared.add((line[len("function: "):].strip(), ""))
        elif line.startswith("file: "):
            file = line[len("file: "):].strip()
            if os.path.normpath(file) != file or not file.startswith(("src/", "specs/", "proofs/")):
                raise BadEdit(f"{file!r} is no file below src/, specs/ or proofs/")
        elif line.startswith("old: "):
            if old is not None:
                raise BadEdit(f"no line 'new:' stands behind 'old: {old}'")
            old = line[len("old: "):]
        elif line.startswith("new:"):
            if file is None or old is None:
                raise BadEdit("a line 'new:' stands before any 'file:' or 'old:'")
            pairs.append((file, old, line[len("new:"):].removeprefix(" ")))
            old = None
    if old is not None:
        raise BadEdit(f"no line 'new:' stands behind 'old: {old}'")
    if not pairs:
        raise BadEdit("it has no lines 'old:' and 'new:'")
    edit = Edit(path, pairs, set())
    texts = {file: (sources / file).read_text(encoding="utf-8") for file, _, _ in pairs}
    functions = []
    for file, old, new in pairs:
        functions.append(function_at(sources, file, texts[file], texts[file].find(old)))
        texts[file] = replaced(texts[file], old, new)
    edit.is_within_bodies = None not in functions
    if declared or edit.is_within_bodies:
        edit.functions = declared or set(functions)
    return edit


def replaced(text, old, new):
    """A text with another one in place of one that stands in it once."""
    if text.count(old) != 1:
        raise BadEdit(f"the text {old!r} stands {text.count(old)} times in its file")
    return text.replace(old, new)


def function_at(sources, file, text, at):
    """The function within whose body a place of a file is, by its path below the crate as a check prints it, or None where it is in no body."""
    if not file.startswith("src/") or at < 0:
        return None
    lines, here = text.split("\n"), text.count("\n", 0, at)
    first = next((number for number in range(here, -1, -1) if FUNCTION.match(lines[number])), None)
    if first is None:
        return None
    indent, name = FUNCTION.match(lines[first]).groups()
    # The body begins at the first line that ends in its brace: that of the signature, or one that is the brace alone, behind the clauses.
    begin = next((number for number in range(first, here + 1) if opens_body(lines[number], indent, number == first)), None)
    left = any(line == indent + "}" for line in lines[first:here])
    # A body on the line of the signature ends there, and a place on a line that opens a body is in it only behind the brace.
    column = at - text.rfind("\n", 0, at) - 1
    ended = begin == first != here and lines[first].endswith("}")
    if begin is None or left or ended or begin == here and (begin != first or column <= lines[here].find("{")):
        return None
    kind = owner(lines, first, indent)
    if kind is None:
        return None
    return "::".join([*path_of(sources, file, kind), name]), cycle_of(lines, first)


def path_of(sources, file, kind):
    """The path below the crate of what stands in a file, of a type or of a module: a type's own methods go by the module that declares it, and those of a trait
    by the module that they stand in."""
    if not kind or kind[1]:
        return [*modules(file), "".join(kind)] if kind else modules(file)
    declared = re.compile(rf"^(?:pub(?:\([^)]*\))? )?(?:struct|enum|union) {kind[0]}\b", re.M)
    found = next((path for path in sorted((sources / "src").rglob("*.rt")) if declared.search(path.read_text(encoding="utf-8"))), None)
    return [*modules(str(found.relative_to(sources)) if found else file), "".join(kind)]


def opens_body(line, indent, is_first):
    """Whether a line of a function opens its body."""
    return line in (indent + "{", indent + ") {") or line.startswith(indent + ") ->") and line.endswith(" {") or is_first and line.endswith(("{", "}"))


def owner(lines, first, indent):
    """The type of the impl in which a function stands, and behind it the trait, as a check prints both; nothing for a function of a module."""
    if not indent:
        return []
    # The block in which it stands: nothing where that is no impl (a trait, a module, another function).
    head = next((line for line in reversed(lines[:first]) if line.strip() not in ("", "{", "where") and len(line) - len(line.lstrip()) < len(indent)), "")
    if not IMPL.match(head):
        return None
    head = without_brackets(head.strip().removeprefix("impl").split(" where ")[0].rstrip("{ "))
    trait, _, kind = head.rpartition(" for ")
    return ["".join(re.findall(r"\w+", kind)), "".join(re.findall(r"\w+", trait))]


def without_brackets(head):
    """The words of an impl without the parameters behind it; of types in brackets the names stay, as of `From<AllocError>`."""
    depth, end = 0, 0
    if head.startswith("<"):
        for end, letter in enumerate(head):
            depth += {"<": 1, ">": -1}.get(letter, 0)
            if not depth:
                break
        head = head[end + 1:]
    head = re.sub(r"'\w+,? ?", "", head).strip()
    trait, _, kind = head.rpartition(" for ")
    kind = re.sub(r"<.*", "", kind)
    return f"{trait} for {kind}" if trait else kind


def cycle_of(lines, first):
    """The cycle of calls to which a function says that it belongs, or an empty text."""
    for line in reversed(lines[:first]):
        found = re.match(r" *#\[cycle\((\w+)\)\]", line)
        if found:
            return found[1]
        if not re.match(r" *(#\[|//)", line):
            return ""
    return ""


def cycle_named(sources, path):
    """The cycle of calls to which a function of a crate belongs, or an empty text, for a crate whose sources lie in a folder."""
    for file in (sources / "src").rglob("*.rt"):
        lines, short = file.read_text(encoding="utf-8").split("\n"), str(file.relative_to(sources))
        for at, line in enumerate(lines):
            found = FUNCTION.match(line)
            if found and found[2] == path.split("::")[-1] and cycle_of(lines, at):
                if "::".join([*path_of(sources, short, owner(lines, at, found[1]) or []), found[2]]) == path:
                    return cycle_of(lines, at)
    return ""


def modules(file):
    """The modules whose items a file has, below the crate."""
    return [part for part in file[len("src/"):].removesuffix(".rt").split("/") if part not in ("lib", "main", "mod")]
