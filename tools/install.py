#!/usr/bin/env python3
"""tools/install.py install PREFIX, tools/install.py uninstall PREFIX: what `./trade install` and `./trade uninstall` do.

Installed are the program, the page that shows a run as `trade-view`, the library for programs in C with header, pkg-config and CMake files, its module for
Python, man pages, completions for bash, and the schema of scenarios. Man pages and completions are made of the texts of help and of the header. DESTDIR in the
environment stands before PREFIX, as makers of packages expect. If anything can't be written, all that was written is taken away, and the status is 1.

share/trade/installed lists what was installed. `uninstall` takes away just that, and the folders that were made for it.
"""
import contextlib
import errno
import os
import pathlib
import re
import subprocess
import sys

sys.dont_write_bytecode = True
from crates import TOP, Crates  # noqa: E402
from made_from import is_made_from, origin_of  # noqa: E402

PROGRAM, LIBRARY, VIEWER = TOP / "crates/trade/out/trade", TOP / "library", TOP / "viewer"
MANIFEST = "share/trade/installed"
SHARED = "libtrade.so"
VIEW = """#!/bin/sh
# Makes a page of a run: trade-view SCENARIO [TURNS] > run.html
here=$(dirname "$(readlink -f "$0")")
exec python3 "$here/../share/trade/view" --trade "$here/trade" "$@"
"""
PKG_CONFIG = """prefix=${{pcfiledir}}/../..
libdir=${{prefix}}/lib
includedir=${{prefix}}/include

Name: trade
Description: Systems of components that trade memory under quotas
Version: {version}
Libs: ${{libdir}}/libtrade.a
Cflags: -I${{includedir}}
"""
CMAKE = """get_filename_component(trade_prefix "${CMAKE_CURRENT_LIST_DIR}/../../.." ABSOLUTE)
if(NOT TARGET trade::trade)
  add_library(trade::trade STATIC IMPORTED)
  set_target_properties(trade::trade PROPERTIES
    IMPORTED_LOCATION "${trade_prefix}/lib/libtrade.a"
    INTERFACE_INCLUDE_DIRECTORIES "${trade_prefix}/include")
endif()
"""
CMAKE_VERSION = """set(PACKAGE_VERSION "{version}")
if(PACKAGE_FIND_VERSION_MAJOR STREQUAL "{major}" AND NOT PACKAGE_VERSION VERSION_LESS PACKAGE_FIND_VERSION)
  set(PACKAGE_VERSION_COMPATIBLE TRUE)
  if(PACKAGE_VERSION VERSION_EQUAL PACKAGE_FIND_VERSION)
    set(PACKAGE_VERSION_EXACT TRUE)
  endif()
endif()
"""
# The command line so far is in `words`, and `given` counts the words that are no options and no values of options.
COMPLETION = """# Completions of bash for trade. `./trade install` makes them of the texts of help.
_trade() {
    local current=${COMP_WORDS[COMP_CWORD]} before=${COMP_WORDS[COMP_CWORD-1]} command=${COMP_WORDS[1]-} options= valued= scenario= given=0 at
    if [ "$COMP_CWORD" -eq 1 ]; then
        COMPREPLY=($(compgen -W "@COMMANDS@" -- "$current"))
        return
    fi
    case $command in
@CASES@    esac
    case " $valued " in *" $before "*) COMPREPLY=(); return ;; esac
    if [ "${current#-}" != "$current" ]; then
        COMPREPLY=($(compgen -W "$options" -- "$current"))
        return
    fi
    for ((at = 2; at < COMP_CWORD; at++)); do
        case " $valued " in *" ${COMP_WORDS[at-1]} "*) continue ;; esac
        case ${COMP_WORDS[at]} in -*) continue ;; esac
        [ "$given" -gt 0 ] || scenario=${COMP_WORDS[at]}
        given=$((given + 1))
    done
    case $command:$given in
        help:0) COMPREPLY=($(compgen -W "@COMMANDS@" -- "$current")) ;;
        rule:0) COMPREPLY=($(compgen -W "$(trade rule 2>/dev/null | sed 's/ .*//')" -- "$current")) ;;
        @LEAVES@) COMPREPLY=($(compgen -W "$(trade check "$scenario" 2>/dev/null | sed -n 's/^budget \\(.* -> \\)*\\(.*\\) own .*/\\2/p')" -- "$current")) ;;
        *) compopt -o filenames 2>/dev/null; COMPREPLY=($(compgen -f -- "$current")) ;;
    esac
}
complete -F _trade trade
"""


class Refused(Exception):
    """What an installation is refused for, in a line."""


def missing(program, archive, crates):
    """What is not built of these sources, with the command that builds it; or nothing."""
    if not program.is_file() or not is_made_from("trade", crates, origin_of("trade", crates)):
        return "the program is not built from these sources: `./trade build` builds it"
    if not archive.is_file() or not is_made_from("gq_library", crates, origin_of("gq_library", crates)):
        return "the library is not built from these sources: `./trade library` builds it"
    return None


def help_of(*words):
    """The text of help of a command, or of the program."""
    return subprocess.run([PROGRAM, *words, "--help"], check=True, stdin=subprocess.DEVNULL, capture_output=True, text=True).stdout


def parts_of(text):
    """The paragraphs of a text of help, each with its heading or none."""
    parts = []
    for block in re.split(r"\n\n", text.strip("\n")):
        heading = re.match(r"([A-Z][a-z ]+):(?:\n|  *)", block)
        parts.append((heading[1], block[heading.end():]) if heading else (None, block))
    return parts


def commands_of(text):
    """The commands that a text of help lists, each with what it does."""
    listed = dict(parts_of(text))["Commands"]
    return dict(re.findall(r"^ +([a-z]+) +(.*)$", listed, re.M))


def escaped(text):
    """A text as troff takes it, line by line."""
    lines = text.replace("\\", "\\e").replace("-", "\\-").split("\n")
    return "\n".join("\\&" + line if line.startswith((".", "'")) else line for line in lines)


def literal(text):
    """Lines that troff leaves as they are."""
    return f".nf\n{escaped(text)}\n.fi\n"


def man_of_program(version):
    """The man page of the program, of the texts of its help."""
    text = help_of()
    (_, about), *parts = parts_of(text)
    page = [f'.TH TRADE 1 "" "trade {version}" "User Commands"\n.SH NAME\ntrade \\- {escaped(about[0].lower() + about[1:])}\n']
    commands = commands_of(text)
    for heading, block in parts:
        if heading == "Usage":
            page.append(f".SH SYNOPSIS\n{literal(re.sub(' *' + chr(10) + ' +', chr(10), block))}")
        elif heading == "Commands":
            page.append(".SH COMMANDS\n")
            for name in commands:
                if name != "help":
                    page.append(f".SS {name}\n")
                    page += [literal(part if title is None else f"{title}:{chr(10) if title != 'Usage' else ' '}{part}") + ".PP\n" for title, part in parts_of(help_of(name))]
        elif heading is None:
            page.append(f".SH DESCRIPTION\n{literal(block)}")
        else:
            page.append(f".SH {heading.upper()}\n{literal(block)}")
    return "".join(page) + ".SH SEE ALSO\nlibtrade(3)\n"


def man_of_library(version):
    """The man page of the library, of its header."""
    header = (LIBRARY / "trade.h").read_text(encoding="utf-8")
    rules = re.search(r"/\*(.*?)\*/", header, re.S)
    about = re.sub(r"\s+", " ", rules[1].partition(":")[2]).strip()
    page = [
        f'.TH LIBTRADE 3 "" "trade {version}" "Library Functions"\n.SH NAME\nlibtrade \\- systems of components that trade memory under quotas\n',
        ".SH SYNOPSIS\n.nf\n#include <trade.h>\n.fi\n.SH DESCRIPTION\n" + escaped(about[0].upper() + about[1:]) + "\n",
        ".SH DECLARATIONS\n",
    ]
    for block in re.split(r"\n\n", header[rules.end():]):
        comment = re.match(r"\s*/\*(.*?)\*/\n?", block, re.S)
        declared = block[comment.end():] if comment else block
        if not re.match(r"(typedef|enum|#define TRADE_[A-GI-Z]|[a-z0-9_]+ \*?trade_)", declared.strip()):
            continue
        page.append(literal(declared.strip("\n")))
        if comment:
            page.append(".PP\n" + escaped(re.sub(r"\s+", " ", comment[1]).strip()) + "\n")
        page.append(".PP\n")
    return "".join(page) + ".SH SEE ALSO\ntrade(1)\n"


def completion():
    """The completions for bash, of the texts of help."""
    commands, cases, leaves = commands_of(help_of()), [], []
    for name in commands:
        if name == "help":
            continue
        text = help_of(name)
        parts = dict(parts_of(text))
        options = re.findall(r"(--[a-z-]+)( <)?", parts["Options"])
        valued = " ".join(option for option, value in options if value)
        cases.append(f'        {name}) options="{" ".join(option for option, _ in options)}" valued="{valued}" ;;\n')
        if "<LEAF>" in parts["Usage"]:
            leaves.append(f"{name}:1")
    words = " ".join([*commands, "--help", "--version"])
    return COMPLETION.replace("@COMMANDS@", words).replace("@CASES@", "".join(cases)).replace("@LEAVES@", "|".join(leaves))


def files(version):
    """All that is installed: for each path below PREFIX its bytes and its mode, or the name that a link leads to."""
    major = version.partition(".")[0]
    made = {
        "bin/trade-view": (VIEW, 0o755),
        "lib/pkgconfig/trade.pc": (PKG_CONFIG.format(version=version), 0o644),
        "lib/cmake/trade/trade-config.cmake": (CMAKE, 0o644),
        "lib/cmake/trade/trade-config-version.cmake": (CMAKE_VERSION.format(version=version, major=major), 0o644),
        "share/man/man1/trade.1": (man_of_program(version), 0o644),
        "share/man/man3/libtrade.3": (man_of_library(version), 0o644),
        "share/bash-completion/completions/trade": (completion(), 0o644),
    }
    found = {path: (text.encode(), mode) for path, (text, mode) in made.items()}
    copied = {
        "bin/trade": PROGRAM,
        "lib/libtrade.a": LIBRARY / "libtrade.a",
        "include/trade.h": LIBRARY / "trade.h",
        "lib/python3/dist-packages/trade.py": LIBRARY / "trade.py",
        "share/trade/scenario.schema.json": TOP / "docs/scenario.schema.json",
        "share/trade/view": TOP / "view",
        **{f"share/trade/viewer/{path.name}": path for path in VIEWER.glob("*.*") if path.suffix in (".html", ".css", ".js")},
    }
    for path, source in copied.items():
        found[path] = source.read_bytes(), 0o755 if path in ("bin/trade", "share/trade/view") else 0o644
    shared = LIBRARY / SHARED
    if shared.is_file():
        found[f"lib/{shared.resolve().name}"] = shared.read_bytes(), 0o755
        if shared.is_symlink():
            found[f"lib/{SHARED}"] = shared.resolve().name, None
    return found


def below(prefix):
    """The folder of a PREFIX, which is a path from the root, behind DESTDIR."""
    if not prefix.startswith("/"):
        prefix = os.path.abspath(prefix)
    return pathlib.Path(os.environ.get("DESTDIR", "") + prefix)


def listed(root):
    """The files that were installed, and the folders that were made for them; nothing where none were."""
    try:
        lines = (root / MANIFEST).read_text(encoding="utf-8").splitlines()
    except OSError:
        return None
    return [line for line in lines if not line.endswith("/")], [line for line in lines if line.endswith("/")]


def taken_away(paths, folders):
    """Takes files away, and then folders that are empty, the deepest first."""
    for path in paths:
        with contextlib.suppress(OSError):
            path.unlink()
    for folder in sorted(folders, key=lambda folder: -len(folder.parts)):
        with contextlib.suppress(OSError):
            folder.rmdir()


def make_folder(folder, made):
    """Makes a folder and those above it, and notes which were made."""
    missing_ones = []
    while not folder.is_dir():
        if os.path.lexists(folder):
            raise NotADirectoryError(errno.ENOTDIR, os.strerror(errno.ENOTDIR), str(folder))
        missing_ones.append(folder)
        folder = folder.parent
    for each in reversed(missing_ones):
        each.mkdir()
        made.append(each)


def install(prefix, version):
    """Writes all files beside their places, and then puts each into its place."""
    root, contents, made, beside, placed = below(prefix), files(version), [], {}, []
    before = listed(root) or ([], [])
    try:
        for path, (content, mode) in contents.items():
            place = root / path
            make_folder(place.parent, made)
            if place.is_dir():
                raise IsADirectoryError(errno.EISDIR, os.strerror(errno.EISDIR), str(place))
            new = place.with_name(f".{place.name}.new")
            beside[path] = new
            new.unlink(missing_ok=True)
            if mode is None:
                new.symlink_to(content)
            else:
                new.write_bytes(content)
                new.chmod(mode)
        folders = [f"{folder.relative_to(root)}/" for folder in made if root in folder.parents]
        manifest = root / f"{MANIFEST}.new"
        beside[MANIFEST] = manifest
        manifest.write_text("".join(f"{line}\n" for line in sorted({*contents, MANIFEST, *folders, *before[1]})), encoding="utf-8")
        for path, new in beside.items():
            placed += [] if os.path.lexists(root / path) else [root / path]
            new.replace(root / path)
    except OSError as fault:
        taken_away([*beside.values(), *placed], made)
        raise Refused(f"nothing is installed: {fault.filename or root}: {fault.strerror or fault}") from None
    taken_away([root / path for path in before[0] if path not in contents and path != MANIFEST], [])
    return len(contents)


def uninstall(prefix):
    """Takes away what was installed."""
    root = below(prefix)
    found = listed(root)
    if found is None:
        raise Refused(f"nothing is installed at {root}")
    taken_away([root / path for path in found[0]], [root / folder for folder in found[1]])
    left = [path for path in found[0] if (root / path).exists()]
    if left:
        raise Refused(f"{root / left[0]} could not be taken away")
    return len(found[0]) - 1


def main(words):
    if len(words) != 2 or words[0] not in ("install", "uninstall"):
        print("usage: ./trade install PREFIX, ./trade uninstall PREFIX", file=sys.stderr)
        return 2
    try:
        if words[0] == "uninstall":
            print(f"{uninstall(words[1])} files are gone from {below(words[1])}")
            return 0
        lacking = missing(PROGRAM, LIBRARY / "libtrade.a", Crates())
        if lacking:
            raise Refused(lacking)
        version = subprocess.run([PROGRAM, "--version"], check=True, capture_output=True, text=True).stdout.split()[1]
        print(f"{install(words[1], version)} files are installed at {below(words[1])}")
        return 0
    except Refused as refused:
        print(f"./trade {words[0]}: {refused}", file=sys.stderr)
        return 1


if __name__ == "__main__":
    sys.exit(main(sys.argv[1:]))
