"""Which names in backquotes of a document are of nothing that there is: what check_documents.py knows of crates, modules, files, calls and definitions.

A name is one of these.

- `gq_x`: a crate. `Type::call` and `gq_x::call`: a call of that type or crate.
- With a `/` or the ending of a file: the end of the path of a file or a folder, perhaps without `.rt` or `.antt`. A word of capitals stands for any name.
- With hyphens: a case, or a key of scenarios.
- Another word: what a crate, the C library or the image without an operating system declares, a file, or a word of the formats: a key, a statement, a command,
  a word that is printed.

Where a document says whose a name is, it has to be there: `a` and `b` of `gq_x`, `a` (`gq_x/specs`), and rows of tables whose columns are a crate's folders.
"""
import builtins
import fnmatch
import functools
import re
import subprocess

from crates import TOP, listed

CRATES, USES = TOP / "crates", listed(TOP)
# Names of other things.
OTHERS = {
    # Placeholders, and words that are wrong on purpose.
    *"AreXs HasX IsX KeepsX PutsX TakesX crates/NAME/must-fail/what_it_does_wrong.edit sing".split(),
    # The language, its logic and tactics, the names of goals, and the kit's libraries.
    *"Allocator Box BufWriter Data Debug Error Global IfErr IfSome Model OnErr Parse Prelude Send Simple Str Vec".split(),
    *"abbrev collect const invariant libc match record refl staticlib std unfoldable unfolding with".split(),
    *"invariant_of-self loop-X-init loop-X-preserved returns-clause-NAME".split(),
    # Other programs, functions of C, settings of the tools, and what a built library has.
    *"calloc cc clang memcpy memmove memset nm realloc python3-jsonschema qemu-system-x86 RT_JOBS lang/src lang/antt/specs".split(),
    # What is installed.
    *"trade-view PKG_CONFIG_PATH PREFIX/lib/pkgconfig PREFIX/lib/python3/dist-packages libtrade.so.2".split(),
    # Genode's.
    *"Attached_ram_dataspace Parent::upgrade Slab Sliced_heap ram_quota transfer_caps transfer_quota".split(),
}
NAME, CALL, CASE = re.compile(r"[A-Za-z_]\w*"), re.compile(r"[A-Za-z_]\w*(::[A-Za-z_]\w*)+"), re.compile(r"[a-z]\w*(-\w+)+")
PATH = re.compile(r"[\w.*{},/-]*/[\w.*{},/-]*|[\w*-]+\.(antt|c|css|edit|h|html|js|json|md|mjs|py|rt|toml|turns|txt)")
FOLDERS = tuple(f"{folder}/" for folder in "benchmarks crates docs examples library tests tools viewer ./tools ./tests".split())
# The codes of faults with their families, and one letter with a number: operands, slots and variables.
CODE = re.compile(r"[A-Z]\d{0,2}|[a-z]\d{0,2}")
# What code declares (items, variants of enums, clauses), what definitions declare, and words that are read or printed.
ITEM = re.compile(r"\b(?:fn|struct|enum|trait|const|static|type|mod) (\w+)|^ +([A-Z]\w*)(?=[(,]| \{)|\b(?:ensures|requires|invariant) (\w+) \{", re.M)
DEFINED = re.compile(r"^ *(?:(?:pub|abbrev|unfoldable|opaque|private|record|data) +)*([^\s:(){},;=]+)(?: [^:=\n]*)? :", re.M)
WORD = re.compile(r'"([a-z][\w-]*)')
BLOCK = re.compile(r"^(?=(?:pub )?(?:impl|enum|trait|struct)\b)", re.M)
OWNER = re.compile(r"(?:impl(?:<[^>]*>)? (?:[^{\n]* for )?|(?:pub )?(?:enum|trait|struct) )(\w+)")
SEVERAL = r"`[^`\n]+`(?:(?:, | and |, and | or )`[^`\n]+`)*"
OF_CRATE = re.compile(rf"({SEVERAL}) (?:of|in) `(gq_\w+)`|({SEVERAL})(?:\*\*)? \(`(gq_\w+)[`/]")


@functools.cache
def paths():
    """The ends of the paths of all files and folders, with and without the ending of a file of code or definitions."""
    command, found = ["git", "ls-files", "--cached", "--others", "--exclude-standard"], set()
    for file in subprocess.run(command, cwd=TOP, check=True, stdout=subprocess.PIPE, text=True).stdout.splitlines():
        path = file
        while path and path not in found:
            names = path.split("/")
            found |= {"/".join(names[first:]) for first in range(len(names))}
            path = path.rpartition("/")[0]
    return found | {path.rpartition(".")[0] for path in found if path.endswith((".rt", ".antt"))}


@functools.cache
def all_paths():
    """The same, a line each."""
    return "\n".join(paths())


@functools.cache
def ignored():
    """What git ignores."""
    return [line.rstrip("/") for line in (TOP / ".gitignore").read_text(encoding="utf-8").splitlines() if line]


@functools.cache
def declared():
    """For each crate the names of its files and all that its code and definitions declare; for each type what its declaration and its `impl`s have; and the
    first word of each literal."""
    of_crates, of_types, words = {crate: {crate} for crate in USES}, {}, set()
    for crate, found in of_crates.items():
        for path in (CRATES / crate / "src").rglob("*.rt"):
            text = path.read_text(encoding="utf-8")
            words.update(WORD.findall(text))
            for block in BLOCK.split(text):
                names = {name for groups in ITEM.findall(block) for name in groups if name}
                found |= names
                owner = OWNER.match(block)
                if owner:
                    of_types.setdefault(owner[1], set()).update(names)
        for path in (CRATES / crate / "specs").rglob("*.antt"):
            text = path.read_text(encoding="utf-8")
            words.update(WORD.findall(text))
            found.update(DEFINED.findall(text))
        found |= {path.stem for part in ("src", "specs", "proofs") for path in (CRATES / crate / part).rglob("*.*t")}
    return of_crates, of_types, words


@functools.cache
def known():
    """All words that may stand by themselves."""
    of_crates, _, words = declared()
    found = set().union(OTHERS, words, dir(builtins), *of_crates.values(), *USES.values())
    found |= {name.partition(".")[0] for name in paths() if "/" not in name}
    found |= set(re.findall(r'"([\w-]+)": \{', (TOP / "docs/scenario.schema.json").read_text(encoding="utf-8")))
    for path in (TOP / "examples").glob("*.toml"):
        found |= set(re.findall(r'^(?:name|provides) = "([\w-]+)"', path.read_text(encoding="utf-8"), re.M))
    found |= set(re.findall(r"\bTRADE_\w+|\btrade_\w+", (TOP / "library/trade.h").read_text(encoding="utf-8")))
    found |= set(re.findall(r"(?:def|class) (\w+)", (TOP / "library/trade.py").read_text(encoding="utf-8")))
    bare = TOP / "library/bare"
    found |= {name for path in bare.glob("*.c") for name in re.findall(r"^[a-z][\w ]*[ *](\w+)\([^;]*$", path.read_text(encoding="utf-8"), re.M)}
    return found | set(re.findall(r"^(\w+) \?=", (bare / "Makefile").read_text(encoding="utf-8"), re.M))


def is_path(path):
    """Whether there is a file or a folder of this path, in which `*`, `{a,b}` and words of capitals may stand. What git ignores is made."""
    path = re.sub(r"^(\.{1,2}/)+", "", path).rstrip("/")
    braces = re.search(r"\{([^}]*)\}", path)
    if braces:
        return all(is_path(path.replace(braces[0], one)) for one in braces[1].split(","))
    if path in paths() or any(fnmatch.fnmatch(path, made) or f"/{made}/" in f"/{path}/" for made in ignored()):
        return True
    pattern = re.escape(re.sub(r"\b[A-Z]{2,}\b", "*", path)).replace(r"\*\*/", "([^/\n]+/)*").replace(r"\*", "[^/\n]*")
    return "*" in pattern and bool(re.search(f"(?m)^{pattern}$", all_paths()))


def is_known(name):
    """Whether what stands in backquotes is of something that there is, or is no name. Lemmas are left out."""
    of_crates, of_types, _ = declared()
    if name in OTHERS:
        return True
    if name.startswith("gq_") and NAME.fullmatch(name):
        return name in USES
    if NAME.fullmatch(name) or CASE.fullmatch(name):
        return name in known() or name in paths() or bool(CODE.fullmatch(name))
    if CALL.fullmatch(name):
        *_, owner, last = name.split("::")
        return last in of_types.get(owner, ()) or last in of_crates.get(name.partition("::")[0], ())
    words = [name] if PATH.fullmatch(name) else [word for word in name.split() if word.startswith(FOLDERS) and PATH.fullmatch(word)]
    return all(is_path(word) for word in words)


def lemmas(names):
    """Those of some words that a proof declares."""
    words = "|".join(name for name in names if NAME.fullmatch(name) and not name.startswith("gq_"))
    command = ["git", "grep", "--untracked", "-hoE", f"^ *(pub |abbrev )*({words}) :", "--", "crates/*/proofs/*.antt"]
    found = subprocess.run(command, cwd=TOP, check=False, stdout=subprocess.PIPE, text=True).stdout if words else ""
    return {line.split()[-2] for line in found.splitlines()}


def names_in(text):
    """What stands in backquotes in a text. A call has no parentheses and a type no parameters."""
    return [re.sub(r"\(\)$|<\w+>$", "", name) for name in re.findall(r"`([^`\n]+)`", text)]


def not_in_folders(lines):
    """Names in rows of tables whose columns are the folders of crates, which a crate of the row does not have there. What stands in parentheses is no file."""
    head = []
    for line in lines:
        cells = [cell.strip(" `") for cell in line.split("|")[1:-1]]
        if not cells or cells[0] == "Crate":
            head = cells
            continue
        for part, cell in zip(head, line.split("|")[1:]):
            of_row = [(name, crate) for name in names_in(re.sub(r"\([^)]*\)", "", cell)) for crate in names_in(line.split("|")[1])]
            if part in ("src", "specs", "proofs"):
                yield from (f"{part}/{name} of {crate}" for name, crate in of_row if f"crates/{crate}/{part}/{name}" not in paths())


def not_of_crates(lines):
    """Names of which a document says that they are of a crate, and that are not."""
    for first, crate, second, other in OF_CRATE.findall(" ".join(line.strip() for line in lines)):
        for name in names_in(first or second):
            last = name.rpartition("::")[2]
            if NAME.fullmatch(last) and last not in declared()[0].get(crate or other, ()):
                yield f"{name} of {crate or other}"


def false_names(text):
    """The names in backquotes in a document that are of nothing that there is, or not of the crate that the document names."""
    text = re.sub(r"^```.*?^```", "", text, flags=re.M | re.S)
    lines = [line for line in text.split("\n") if not line.startswith("    ")]
    unknown = [name for name in dict.fromkeys(names_in("\n".join(lines))) if not is_known(name)]
    proved = lemmas(unknown)
    return [*(name for name in unknown if name not in proved), *not_in_folders(lines), *not_of_crates(lines)]
