#!/usr/bin/env python3
"""tools/try_edits.py [--at FOLDER] [--jobs N] [--anew] [--sample] [--list] [--drop] [--times] [CRATE..]: tries must-fail edits: the prover has to refuse each.

It tries the edits of all crates, or of these, that have no record over the sources as they are (tools/records.py): an edit shows how strong a contract is, and
a contract that did not change is as strong as it was. It writes a record of each edit that was refused, and takes away that of one that was not.

--sample also tries one in ten of the edits that have a record, and one in four where a contract or a definition of a crate below is another one. A checksum of
the commit and of the edit's name chooses them. The sample ends after 20 minutes. --anew tries all edits. --list tries none, and prints what is wrong with which
record. --drop takes away the records of edits that are gone, which fail otherwise. --times prints on standard error how many seconds each check took, and of
which edits it was.

The edits of a crate are tried together, in one copy of its sources and one check of the functions that they change. That serves as well as a check for each,
as a function is proved from what the functions that it calls promise, and not from their bodies: an edit in one body can break no goal of another function.
And each edit counts as refused only where a goal of a function that it changes is open, or its answer fails, which says more than that the crate is refused.

What is not refused so is tried once more without those that were, as the goals of a function may wait for a function that it calls. Edits that change
one function, one cycle of functions, or the same line go into different checks. An edit that is not within bodies (of a clause, a definition, a proof), and
one that was not refused beside others, is tried alone, as the toolchain's own `rt must-fail` tries each.

The libraries are read below FOLDER, a copy of the repository in which `rt ci` has passed (else the repository itself). The last line counts the edits, those
that were tried, and those that were refused. It ends with 0 where each edit that was tried was refused.
"""
import argparse
import concurrent.futures
import dataclasses
import pathlib
import re
import shutil
import subprocess
import sys
import tempfile
import time

from crates import PARTS, TOP, Crates, listed
from edits import BadEdit, cycle_named, read_edit, replaced
from processors import wanted_jobs
from records import BadRecord, NoLibrary, NoLogic, Records, Sums, digest

# Of the edits with a record one in so many is tried all the same, and of those with other contracts below one in so many.
ONE_IN, ONE_IN_CHANGED = 10, 4
# How long the sample may take, in seconds.
SAMPLE_SECONDS = 20 * 60
# What is said of a text that can't be read, where one that is only false reads well.
UNREADABLE = re.compile(r"is not in scope|has no field|is no name|operand is missing|expected the end|cannot continue")
# What a proof file says where an edit took away a name, and so nothing of a contract.
ABOUT_NAMES = re.compile(r"has no field|is not in scope|has no `|was not admitted")
# What is said of a function whose contract is not well formed, so that nothing of it was tried.
NOT_STATED = "antt did not admit its contract or its `statement`"
# What is said of a goal that can't be proved, for certain.
IS_FALSE = "allow values at which this goal is false"


class OutOfTime(Exception):
    """The time for the sample is over."""


@dataclasses.dataclass
class CheckReport:
    """What a check said: its exit status, its lines, and of each function what keeps it from being proved by itself."""

    status: int
    lines: list
    refused: dict


@dataclasses.dataclass
class Trial:
    """How the edits of a crate are tried: the crates, the crate, the folder in which a check finds what those before it kept, and when there is no more time."""

    crates: Crates
    name: str
    kept: str
    until: float | None = None

    def check(self, edits, more=()):
        """What a check says of a copy of the crate with some edits; further words are given to it. A check that does not end in time has no answer."""
        left = None if self.until is None else self.until - time.monotonic()
        if left is not None and left <= 0:
            raise OutOfTime
        folder, start = self.crates.folder(self.name), time.monotonic()
        # (tools/measure_gate.py knows the work by the folder's name)
        with tempfile.TemporaryDirectory(prefix="rt-edits-") as room:
            for part in PARTS:
                if (folder / part).is_dir():
                    shutil.copytree(folder / part, pathlib.Path(room, part))
            for edit in edits:
                for file, old, new in edit.pairs:
                    path = pathlib.Path(room, file)
                    path.write_text(replaced(path.read_text(encoding="utf-8"), old, new), encoding="utf-8")
            how = {"stdin": subprocess.DEVNULL, "stdout": subprocess.PIPE, "stderr": subprocess.STDOUT, "text": True, "errors": "replace"}
            command = self.crates.check(self.name, ["--incremental", self.kept, *more])
            try:
                ran = subprocess.run(command, cwd=room, check=False, timeout=left, **how)
            except subprocess.TimeoutExpired:
                raise OutOfTime from None
        if self.crates.times:
            print(f"{time.monotonic() - start:.0f} s: {self.name}: {' '.join(edit.path.stem for edit in edits)}", file=sys.stderr, flush=True)
        return read_report(self.name, ran.returncode, ran.stdout.rstrip("\n").split("\n"))


def read_report(name, status, lines):
    """What a check said, from its lines. Of a goal without an answer it reports in notes, before the line of the function."""
    refused, goals, verdicts, renamed = {}, [], {}, set()
    for line in lines:
        answer = re.match(r"(?:\./)?proofs/(\S+)/(?:Answers|Proof)\.antt:\d+:\d+: error: (.*)", line)
        goal = re.match(r"note: src/\S+:\d+:\d+: (it is not proved .*)", line)
        function = re.match(rf"fn {name}::(\S+): ", line)
        if answer and ABOUT_NAMES.search(answer[2]):
            renamed.add(answer[1].replace("/", "::"))
        elif answer:
            refused.setdefault(answer[1].replace("/", "::"), answer[2])
        elif goal:
            goals.append(goal[1])
        elif function:
            # A goal that has another name now lacks its answer: then it counts only where it is false.
            open_goals = [goal for goal in goals if IS_FALSE in goal or not renamed & {*proofs_of(function[1])}]
            refused.update({function[1]: open_goals[0]} if open_goals and function[1] not in refused else {})
            goals, verdicts[function[1]] = [], line[function.end():]
    # What is proved all the same, or what antt could not tell, is not refused.
    return CheckReport(status, lines, {path: why for path, why in refused.items() if verdicts.get(path, "not proved").startswith(("not proved", "no proof"))})


def proofs_of(path):
    """The paths below `proofs` at which the proof of a function may stand: its own, and one with a `+` where it calls itself."""
    above, colons, last = path.rpartition("::")
    return path, f"{above}{colons}+{last}"


def why_refused(edit, said):
    """Why a check refuses an edit at a function that it changes, or nothing where it does not."""
    for path, cycle in edit.functions:
        for refused, why in said.refused.items():
            if refused in proofs_of(path) or cycle and refused.split("::")[-1] == f"+{cycle}":
                return f"{path}: {why}"
    return ""


def breaks_others(crates, name, edits, said):
    """Whether a check refuses a function that none of these edits changes, so that they are better tried alone. The functions of a cycle have one proof."""
    changed = {proof for edit in edits for path, _ in edit.functions for proof in proofs_of(path)}
    cycles = {cycle for edit in edits for _, cycle in edit.functions if cycle}
    others = [path for path in said.refused if path not in changed and path.split("::")[-1] not in {f"+{cycle}" for cycle in cycles}]
    return any(cycle_named(crates.folder(name), path) not in cycles for path in others)


def unread(said, edits):
    """The first line by which a check reports that it can't read the crate with some edits, so that no contract was tried; nothing where it can."""
    files = {file for edit in edits for file, _, _ in edit.pairs}
    for line in said.lines:
        if NOT_STATED in line:
            return line
        found = re.match(r"(?:\./)?(\S+?):\d+:\d+: error: (?:(`[^`]*`): )?(.*)", line)
        if found and (found[1] in files or found[1].startswith(("src/", "specs/"))):
            if not found[2] or UNREADABLE.search(re.sub(r"`[^`]*`", "", found[3])):
                return line
    return ""


def has_read(said, edits):
    """Whether the crate was read and its functions looked at, so that what is not refused is proved or waits for another function."""
    return said.status == 1 and re.match(r"logic=not-proved|only=", said.lines[-1]) is not None and not unread(said, edits)


def parted(edits):
    """Edits in groups, in each of which no two change one function, one cycle or one text."""
    groups = []
    for edit in edits:
        for group in groups:
            if not any(collide(edit, other) for other in group):
                group.append(edit)
                break
        else:
            groups.append([edit])
    return groups


def collide(one, other):
    """Whether two edits can't be tried in one check. One that changes more than bodies, as that of a law, breaks others, and goes by itself."""
    if not (one.is_within_bodies and other.is_within_bodies):
        return True
    cycles = {cycle for _, cycle in one.functions if cycle} & {cycle for _, cycle in other.functions if cycle}
    both = [(pair, another) for pair in one.pairs for another in other.pairs if pair[0] == another[0]]
    texts = any(old in text or text in old or old in put for (_, old, _), (_, text, put) in both)
    return bool(cycles or texts or {path for path, _ in one.functions} & {path for path, _ in other.functions})


def try_together(trial, edits, found):
    """Tries edits within bodies in as few checks as can be. Puts down why each is refused; those that are not refused so are not among them."""
    for group in parted(edits):
        left = group
        while left:
            try:
                said = trial.check(left, only_of(left))
            except BadEdit:
                break
            refused = {edit.name: why for edit in left if (why := why_refused(edit, said))}
            if not refused or not has_read(said, left) or len(left) > 1 and breaks_others(trial.crates, trial.name, left, said):
                break
            found.update(refused)
            left = [edit for edit in left if edit.name not in refused]


def try_alone(trial, edit):
    """Tries an edit by itself, on the functions that it changes and else on the whole crate. Gives whether it was refused, and what is to be said."""
    refused, why = False, ""
    if edit.functions:
        refused, why = verdict(trial.check([edit], only_of([edit])), edit)
    return (refused, why) if refused else verdict(trial.check([edit]), edit)


def verdict(said, edit):
    """Whether a check of one edit refuses it, wherever that is, and what is to be said."""
    if unread(said, [edit]):
        return False, f"the prover can't read the crate with it: {unread(said, [edit])[:160]}"
    if said.status == 1 and said.lines[-1].startswith(("logic=not-proved", "only=")):
        at = [line for line in said.lines if re.match(r"(note: )?\S+:\d+:\d+:", line) and (": error" in line or line.startswith("note: "))]
        why = next((line for line in at if not re.match(r"(\./)?proofs/", line) or not ABOUT_NAMES.search(line)), "" if at else said.lines[-1])
        return why != "", why[:160] or "only a proof file names what the edit took away, which says nothing of a contract"
    return False, "the crate is still proved with it" if said.status == 0 else "\n".join(said.lines[-6:])


def only_of(edits):
    """The words by which a check looks at the functions that some edits change, and at no others."""
    return [word for edit in edits for path, _ in sorted(edit.functions) for word in ("--only", path)]


@dataclasses.dataclass
class Plan:
    """What is to be tried of a crate: its edits, their records, those that have to be tried with the reason for each, and those of the sample."""

    name: str
    edits: list
    records: Records
    owed: dict
    sample: list
    wrong: list


def planned(crates, sums, name, given, commit):
    """What is to be tried of a crate."""
    plan = Plan(name, [], Records(name), {}, [], [])
    for path in sorted((TOP / "crates" / name / "must-fail").glob("*.edit")):
        try:
            plan.edits.append(read_edit(path, crates.folder(name)))
        except (BadEdit, OSError, UnicodeError) as error:
            plan.wrong.append(f"{name}/{path.name}: BAD EDIT: {error}")
    for edit in plan.edits:
        own, below = plan.records.sums.get(edit.path.name, ("", ""))
        if own != sums.own(name, edit) or given.anew:
            plan.owed[edit.name] = "all are tried" if given.anew else f"its record is of other sources of {name}" if own else "it has no record"
        elif commit and is_chosen(commit, edit, below != sums.below(name)):
            plan.sample.append(edit)
    for edit in plan.records.gone():
        plan.records.drop(edit) if given.drop else plan.wrong.append(
            f"{name}/{edit} has a record and is gone: `tools/try_edits.py --drop {name}` takes the record away"
        )
    return plan


def is_chosen(commit, edit, has_changed_below):
    """Whether an edit with a record belongs to the sample of a commit."""
    number = int(digest([commit.encode(), edit.name.encode()]), 16)
    return number % (ONE_IN_CHANGED if has_changed_below else ONE_IN) == 0


def try_crate(crates, sums, plan, edits, until):
    """Tries edits of a crate, and keeps records of what was refused. Gives for each that was tried whether it was refused, and a line."""
    found, alone = {}, {}
    with tempfile.TemporaryDirectory(prefix="rt-edits-") as kept:
        trial = Trial(crates, plan.name, kept, until)
        try:
            try_together(trial, [edit for edit in edits if edit.functions], found)
            for edit in edits:
                if edit.name not in found:
                    alone[edit.name] = try_alone(trial, edit)
        except OutOfTime:
            pass
    lines = []
    for edit in edits:
        if edit.name in found:
            refused, why = True, f"refused at {found[edit.name][:160]}"
        elif edit.name in alone:
            refused, why = alone[edit.name]
            why = f"{'refused, alone' if refused else 'NOT REFUSED'}: {why}"
        else:
            continue
        lines.append((refused, f"{edit.name}: {why}"))
        if refused:
            plan.records.keep(edit.path.name, sums.own(plan.name, edit), sums.below(plan.name))
        else:
            plan.records.drop(edit.path.name)
    try:
        plan.records.write()
    except OSError as error:
        print(f"no record was kept of the edits of {plan.name}: {error}", file=sys.stderr)
    return lines


def weight(crates, name, edits):
    """How long some edits of a crate may take, beside those of others."""
    return 10 * len(edits) + len(crates.below(name))


def try_all(crates, sums, work, jobs, until=None):
    """Tries the edits of several plans side by side, and prints a line for each. Gives whether each was refused."""
    pool, verdicts = concurrent.futures.ThreadPoolExecutor(jobs), []
    try:
        for tried in concurrent.futures.as_completed([pool.submit(try_crate, crates, sums, plan, edits, until) for plan, edits in work if edits]):
            for refused, line in tried.result():
                print(f"must-fail {line}", flush=True)
                verdicts.append(refused)
    finally:
        pool.shutdown(cancel_futures=True)
    return verdicts


def try_sample(crates, sums, plans, jobs, commit):
    """Tries the edits of the sample, in an order that the commit decides, until the time for it is over. Gives whether each that was tried was refused."""
    work = sorted(((plan, plan.sample) for plan in plans), key=lambda it: digest([commit.encode(), it[0].name.encode()]))
    verdicts = try_all(crates, sums, work, jobs, time.monotonic() + SAMPLE_SECONDS)
    chosen = sum(len(plan.sample) for plan in plans)
    recorded = sum(len(plan.edits) - len(plan.owed) for plan in plans)
    ended = "" if len(verdicts) == chosen else f" The {SAMPLE_SECONDS // 60} minutes for it were over before the others."
    print(f"The sample of commit {commit[:12]} has {chosen} of the {recorded} edits with a record; {len(verdicts)} of them were tried.{ended}")
    return verdicts


def commit_at(top):
    """The commit that the repository is at."""
    ran = subprocess.run(["git", "rev-parse", "HEAD"], cwd=top, check=False, capture_output=True, text=True)
    if ran.returncode:
        raise SystemExit(f"no commit is there to choose a sample by: {ran.stderr.strip()}")
    return ran.stdout.strip()


def read_words():
    """The words of the command line."""
    parser = argparse.ArgumentParser(description=__doc__, formatter_class=argparse.RawDescriptionHelpFormatter)
    parser.add_argument("--at", default=TOP, metavar="FOLDER")
    parser.add_argument("--jobs", type=int, default=wanted_jobs(), metavar="N")
    for option in ("--anew", "--sample", "--list", "--drop", "--times"):
        parser.add_argument(option, action="store_true")
    parser.add_argument("crates", nargs="*", metavar="CRATE")
    given = parser.parse_args()
    for name in given.crates:
        if name not in listed(TOP):
            parser.error(f"crates.txt lists no crate {name}")
    return given


def main():
    given = read_words()
    crates = Crates(given.at)
    crates.times = given.times
    sums, commit = Sums(crates), commit_at(TOP) if given.sample else ""
    try:
        plans = [planned(crates, sums, name, given, commit) for name in given.crates or crates.uses]
        if not given.list:
            for plan in plans:
                _ = sums.below(plan.name) if plan.owed or plan.sample else ""
    except (BadRecord, NoLibrary, NoLogic) as error:
        raise SystemExit(str(error)) from None
    for plan in plans:
        for line in plan.wrong:
            print(line)
        for edit, why in plan.owed.items():
            if not given.anew:
                print(f"{edit} has to be tried: {why}. `tools/try_edits.py {plan.name}` tries it and writes its record", flush=True)
    edits, wrong = sum(len(plan.edits) for plan in plans), sum(len(plan.wrong) for plan in plans)
    if given.list:
        print(f"{edits} edits, {sum(len(plan.owed) for plan in plans)} of them without a record, {wrong} mistakes")
        return 1 if wrong else 0
    for plan in plans:
        if given.drop:
            plan.records.write()
    owed = [(plan, [edit for edit in plan.edits if edit.name in plan.owed]) for plan in plans]
    verdicts = try_all(crates, sums, sorted(owed, key=lambda it: -weight(crates, it[0].name, it[1])), given.jobs)
    if given.sample:
        verdicts += try_sample(crates, sums, plans, given.jobs, commit)
    refused = sum(verdicts)
    print(f"{edits} edits, {len(verdicts)} tried, {refused} refused, {len(verdicts) - refused} not refused, {wrong} mistakes")
    return 1 if refused < len(verdicts) or wrong or not edits else 0


if __name__ == "__main__":
    sys.exit(main())
