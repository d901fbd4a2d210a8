"""Which definitions a contract mentions, and which these mention in turn, by name: what check_documents.py knows of specs/ and of clauses."""
import functools
import pathlib
import re

TOP = pathlib.Path(__file__).resolve().parent.parent
CRATES = TOP / "crates"
USE = re.compile(r"^(?:pub )?(?:ghost )?use (Rattle\.[\w.+-]+?)(?:\.\{([^}]*)\}| as (\S+?))?;?$")
HEAD = re.compile(r"(?:(?:pub|abbrev|unfoldable|opaque|private)\s+)*(?:(record|data)\s+)?(?:pub\s+)?([^\s:(){},;]+)")
FUNCTION = re.compile(r"( *)pub (?:extern \"C\" )?fn (\w+)")


def module_of(path):
    """The module of a file of definitions, as `gq_model.specs.machine.Run`."""
    return ".".join(path.relative_to(CRATES).with_suffix("").parts)


def imports(lines):
    """The names that `use` lines bring: each with the module and the name there, or with the module alone where it is an alias of one."""
    found = {}
    for line in lines:
        use = USE.match(line.strip())
        if not use:
            continue
        module = use[1].removeprefix("Rattle.")
        if use[3]:
            found[use[3]] = (module, None)
        elif use[2] is None:
            found[module.rpartition(".")[2]] = (module.rpartition(".")[0], module.rpartition(".")[2])
        else:
            for part in use[2].split(","):
                name, _, alias = part.strip().partition(" as ")
                if name:
                    found[alias.strip() or name] = (module, name)
    return found


@functools.cache
def file_of(module):
    """The definitions of a module, each with its text, and the names that it imports; nothing where no file has it, as for the kit's."""
    path = CRATES.joinpath(*module.split(".")).with_suffix(".antt")
    if "declared" in module.split(".") or not path.is_file():
        return None
    lines, blocks, owners, name, is_data = path.read_text(encoding="utf-8").split("\n"), {}, {}, None, False
    for line in lines:
        line = re.sub(r"(^|\s)--.*", "", line)
        if line[:1].strip() and not re.match(r"(pub )?use |(pub )?mod |module ", line):
            name, is_data = HEAD.match(line)[2], HEAD.match(line)[1] == "data" if name != HEAD.match(line)[2] else is_data
            blocks.setdefault(name, [])
        if name and line.strip():
            blocks[name].append(line)
            # What makes a value of a type brings the type with it.
            made = re.match(r"  (?:pub )?([^\s:(){},;]+)(?: [^:]*)? :", line)
            if made and is_data:
                owners.setdefault(made[1], name)
    return {"blocks": {name: "\n".join(text) for name, text in blocks.items()}, "owners": owners, "imports": imports(lines)}


def mentioned(text, own, brought):
    """The definitions that a text mentions: those of its own module, and those that it imports."""
    found = set()
    for word in re.findall(r"[^\s(){},;\[\]\"]+", text):
        head, dot, rest = word.partition(".")
        if word in own[1] or head in own[1]:
            found.add((own[0], head))
        elif head in brought:
            module, name = brought[head]
            found.add((module, name) if name else (module, rest.partition(".")[0]))
    return found


def resolved(module, name):
    """A definition by its module and the name under which its text stands there, or nothing where the repository has none."""
    file = file_of(module)
    if file is None:
        return None
    if name in file["blocks"]:
        return module, name
    return (module, file["owners"][name]) if name in file["owners"] else None


@functools.cache
def next_to(module, name):
    """The definitions that one mentions."""
    file = file_of(module)
    names = file["blocks"].keys() | file["owners"].keys()
    return [known for other in mentioned(file["blocks"][name], (module, names), file["imports"]) if (known := resolved(*other))]


def closure(roots):
    """All definitions that these mention in turn, with themselves."""
    found, left = set(), [it for root in roots if (it := resolved(*root))]
    while left:
        it = left.pop()
        if it not in found:
            found.add(it)
            left += next_to(*it)
    return found


def clauses(path):
    """The clauses of each public function of a file of code, by its name."""
    found, name, indent = {}, None, ""
    for line in path.read_text(encoding="utf-8").split("\n"):
        function = FUNCTION.match(line)
        if function:
            indent, name = function[1], function[2]
            found.setdefault(name, [])
        elif name and line.rstrip() in (indent + "{", indent + "{}") or line.rstrip() == indent + "}":
            name = None
        if name and not line.lstrip().startswith("//"):
            found[name].append(line)
    return {name: "\n".join(lines) for name, lines in found.items()}


def mentioned_by(path, names=None):
    """The definitions that the contracts of a file's public functions mention, or of those of these names, with what these mention in turn."""
    brought = imports(path.read_text(encoding="utf-8").split("\n"))
    texts = [text for name, text in clauses(path).items() if names is None or name in names]
    return closure({it for text in texts for it in mentioned(text, ("", ()), brought)})
