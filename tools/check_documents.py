#!/usr/bin/env python3
"""tools/check_documents.py: compares what the documents list with the sources. It prints each difference, and ends with 1 where there is one.

- docs/TRUSTED.md lists each file of definitions that the contracts of the commands, of the C library and the laws mention, in turn and by name, and no other.
- docs/PROOFS.md names functions and types that their crates have, and each law that stands on a function without a body.
- README.md, docs/SCENARIOS.md and docs/PROOFS.md have each command of the program, and no document or comment names another one.
- docs/ARCHITECTURE.md has a row for each crate, and the heads of crates name modules that they have.
- A name in backquotes in a document is of something that there is, and of the crate that the document names (tools/document_names.py).
"""
import functools
import re
import sys

sys.dont_write_bytecode = True
from crates import listed  # noqa: E402
from definitions import CRATES, TOP, mentioned_by  # noqa: E402
from document_names import false_names  # noqa: E402

# The public functions whose contracts TRUSTED.md is about: of a file those named, or all of them.
TRUSTED = {
    "gq_world/src/run.rt": {"run"},
    "gq_reports/src/check.rt": {"check"},
    "gq_reports/src/asm.rt": {"asm"},
    "gq_world/src/load.rt": {"load"},
    "gq_world/src/world.rt": {"turn", "account", "budgets", "leaf", "nodes", "node", "free_pages"},
    "gq_library/src/loading.rt": None,
    "gq_library/src/reading.rt": None,
    "gq_library/src/running.rt": None,
    "gq_output/src/counted.rt": None,
    "gq_command/src/command_line.rt": {"command"},
    "gq_command/src/input.rt": {"read_input"},
    "gq_command/src/stored.rt": {"parted"},
    "gq_command/src/status.rt": {"code"},
    "gq_cli/src/execute.rt": None,
    "gq_faults/src/faults.rt": {"faults"},
    "gq_faults/src/turn_faults.rt": {"faults_of_both"},
}
# Words that stand behind `trade` in documents and are no commands: what is no command on purpose.
NO_COMMANDS = {"walk"}


def text_of(name):
    return (TOP / name).read_text(encoding="utf-8")


def sources():
    """All files of code, but for programs."""
    return sorted(path for path in CRATES.glob("*/src/**/*.rt"))


def laws():
    """For each law, a public function without a body whose name ends in `laws`, the file that has it."""
    found = {}
    for path in sources():
        for name in re.findall(r"^pub fn (\w*laws)\(\)$|^pub fn (\w*laws)\(\)\n(?:    .*\n)*\{\}$", path.read_text(encoding="utf-8"), re.MULTILINE):
            found[name[0] or name[1]] = path
    return found


def commands():
    """The commands of the program, by their names."""
    return re.findall(r'^    name: "(\w+)",$', (CRATES / "gq_command/src/entries.rt").read_text(encoding="utf-8"), re.MULTILINE)


def table_files(text):
    """The files of definitions that the first two tables of TRUSTED.md list, and the rows that name none."""
    found, wrong, folders = [], [], []
    for line in text.partition("### Types that code")[0].split("\n"):
        head, row = re.match(r"\| \*\*.*\*\* \|", line), re.match(r"\| `([^`]+)` \|", line)
        if head:
            folders = re.findall(r"`([^`]+)`", line)
        elif row:
            paths = [path for path in (row[1], *(f"{folder}/{row[1]}" for folder in folders)) if (CRATES / path).with_suffix(".antt").is_file()]
            found += paths[:1]
            wrong += [] if paths else [row[1]]
    return found, wrong


def check_trusted():
    found, wrong = table_files(text_of("docs/TRUSTED.md"))
    yield from (f"docs/TRUSTED.md lists {name}, which is no file" for name in wrong)
    paragraphs = text_of("docs/PROOFS.md").partition("## The laws in plain words")[2]
    mentioned = set()
    for path, names in TRUSTED.items():
        mentioned |= mentioned_by(CRATES / path, names)
    for name, path in laws().items():
        if f"**`{name}`**" in paragraphs and not path.is_relative_to(CRATES / "gq_laws") or name in LAWS:
            mentioned |= mentioned_by(path, {name})
    files = {module.replace(".", "/") for module, _ in mentioned}
    yield from (f"docs/TRUSTED.md does not list {path}" for path in sorted(files - set(found)))
    yield from (f"docs/TRUSTED.md lists {path}, which no contract of a command or of the C library and no law mentions" for path in sorted(set(found) - files))


# Of the laws of gq_laws those that TRUSTED.md is about.
LAWS = {"progress_laws", "reaction_laws", "apart_laws", "separation_laws"}


@functools.cache
def named(crate):
    """All names that a crate declares, and its modules."""
    found = set()
    for path in (CRATES / crate / "src").rglob("*.rt"):
        text = path.read_text(encoding="utf-8")
        found |= set(re.findall(r"\b(?:fn|struct|enum|trait|const|static|type|mod) (\w+)", text)) | {path.stem}
        found |= set(re.findall(r"pub use [\w:]*?(\w+);", text))
        for names in re.findall(r"pub use [\w:]*\{([^}]*)\}", text):
            found |= {name.strip() for name in names.split(",")}
    return found


def check_proofs():
    text, crate = text_of("docs/PROOFS.md"), None
    index = text.partition("## Index")[2].partition("## ")[0]
    for line in index.split("\n"):
        row = re.match(r"\| (?:`(\w+)`)? ?\| (.*?) \|", line)
        if row and "Function" not in line:
            crate = row[1] or crate
            if not (CRATES / crate).is_dir():
                yield f"docs/PROOFS.md has a row for {crate}, which is no crate"
                continue
            for word in re.findall(r"`([\w:]+)`", row[2]):
                for name in word.split("::"):
                    if name not in named(crate) and not any(name in named(other) for other in listed(TOP)[crate] if (CRATES / other).is_dir()):
                        yield f"docs/PROOFS.md names {word} of {crate}, which does not have it"
    for name, path in laws().items():
        if not re.search(rf"`(\w+::)?{name}`", text):
            yield f"docs/PROOFS.md does not name the law {name} of {path.relative_to(CRATES)}"


def check_commands():
    names = commands()
    tables = {"README.md": text_of("README.md"), "docs/SCENARIOS.md": text_of("docs/SCENARIOS.md")}
    for name in names:
        for document, text in tables.items():
            if not re.search(rf"^\| .*`{name}\b", text, re.MULTILINE):
                yield f"no table of {document} has the command {name}"
        if not re.search(rf"^\|.*`{name}(_of)?`", text_of("docs/PROOFS.md"), re.MULTILINE):
            yield f"the index of docs/PROOFS.md does not have the command {name}"
    known = {*names, *NO_COMMANDS, "build", "help", "install", "library", "uninstall"}
    for path in [*documents(), *sources()]:
        text = path.read_text(encoding="utf-8")
        comments = text if path.suffix == ".md" else "\n".join(re.findall("//.*", text))
        for word in re.findall(r"`(?:\./)?trade ([a-z]+)", comments):
            if word not in known:
                yield f"{path.relative_to(TOP)} names the command {word}, which there is not"


def check_architecture():
    rows = re.findall(r"^\| `(\w+)` \|", text_of("docs/ARCHITECTURE.md").partition("## From a text")[0], re.MULTILINE)
    libraries = [name for name in listed(TOP) if (CRATES / name / "src/lib.rt").is_file()]
    tests = {name for name in libraries if name.endswith("_rows")}
    yield from (f"docs/ARCHITECTURE.md has no row for {name}" for name in libraries if name not in rows and name not in tests)
    yield from (f"docs/ARCHITECTURE.md has a row for {name}, which is no library" for name in rows if name not in libraries and (name.startswith("gq_")))
    for crate in libraries:
        head = re.search(r"^//! Modules: .*(?:\n//! .*)*", (CRATES / crate / "src/lib.rt").read_text(encoding="utf-8"), re.MULTILINE)
        has = {path.stem for path in (CRATES / crate / "src").rglob("*.rt")}
        for name in sorted(set(re.findall(r"`(\w+)`", head[0])) - has if head else []):
            yield f"the head of {crate} names the module {name}, which it does not have"


def documents():
    """The documents of the repository."""
    return [TOP / "README.md", *sorted((TOP / "docs").glob("*.md"))]


def check_names():
    for path in [*documents(), TOP / "viewer/README.md"]:
        yield from (f"{path.relative_to(TOP)} names {name}, which there is not" for name in false_names(path.read_text(encoding="utf-8")))


def main():
    differences = [it for check in (check_trusted, check_proofs, check_commands, check_architecture, check_names) for it in check()]
    print("\n".join(differences) if differences else "The documents list what there is.")
    return 1 if differences else 0


if __name__ == "__main__":
    sys.exit(main())
