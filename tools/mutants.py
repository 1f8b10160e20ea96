#!/usr/bin/env python3
"""Checks that the prover refuses the mutants of the crates: the edits
crates/NAME/wrong-bodies/*.edit and crates/NAME/by-hand/*.edit.

    tools/mutants.py --all [NAME..]       tries all mutants, of all crates or of these
    tools/mutants.py --changed            tries the mutants that the gate tries: all of each crate
                                          that changed since they were last refused, and a tenth
                                          of the others
    tools/mutants.py --list               prints each crate, the number of its mutants, and whether
                                          it is unchanged, changed or unrecorded; tries nothing
    tools/mutants.py --check-names        checks the names of all mutants, also of those in
                                          must-fail/; tries nothing

    --record            writes the checksum of each crate whose mutants were all tried and refused
                        into tools/mutants.txt, and keeps the lines of crates that were not tried
    --record-to FILE    writes this record into FILE and leaves tools/mutants.txt alone. The gate
                        writes out/mutants.txt, which can be committed as tools/mutants.txt.

tools/mutants.txt has a line for each crate: its name, and the checksum of the sources for which all
of its mutants were refused. The checksum covers the logic of the toolchain, the crate's line of
crates.txt, and its src/, specs/, proofs/ and mutants. A crate with another checksum has changed. A
crate without a line is unrecorded: its mutants were never all tried in one run. The gate counts it
among the others and names it, and a release needs a line for each crate.

The tenth of the others consists of whole crates: first those that are unrecorded, then the
recorded ones, each in the order of the checksums of their names and sums. So the record fills as
the records of gates are committed. It is not a tenth of each crate, because a check loads the
libraries below it once for all mutants of a round. A crate that does not fit into what is left of
the tenth is left out, because the project's CI has no time for it. A crate with more mutants than
the whole tenth never fits. It is tried by --all, or after a change of its recorded sources. The
mutants in must-fail/ are not tried here: `rt ci` tries them.

An edit has a line 'file: src/lib.rt' and pairs of lines 'old: TEXT' and 'new: TEXT'. Each TEXT is
one line, and the old one occurs exactly once in the file. An edit that changes more than bodies,
such as a constant, may have lines 'refused: PATH'. Each names a function that has to be refused.
Without such lines any function may be refused.

The name of an edit is FUNCTION__MUTATION.edit, in snake case. FUNCTION is the function, definition,
type or constant that the edit changes, and MUTATION is what that does wrong. No other edit of the
crate has the name.

A function is proved from the contracts of the functions that it calls, whatever their bodies are.
So one check tries many wrong bodies. The edits of different functions are made together in one copy
of the crate; that is a round. The check is of these functions and of those that they call.

Each changed function has to be refused for its own body. It does not count that it calls a refused
function, or that a proof names something that the edit removed. No unchanged function may be
refused for its own body. Edits of the same function are in different rounds, and each round starts
from what the checks before it stored. An edit that is not refused in a round with others is tried once
more alone, because one edit can hide what another shows. An edit that changes more than bodies has
its own round.

The script needs the libraries that `rt ci`, or `rt check` of the crates above, left in
crates/NAME/out. It starts from what a check of the crate itself stored there. Failures are printed
on standard error and lead to status 1. The last line is 'N passed, M failed'.
"""

import argparse
import functools
import hashlib
import os
import re
import shutil
import subprocess
import sys
import tempfile
from collections import namedtuple
from concurrent.futures import ThreadPoolExecutor

TOP = os.environ.get("TREE") or os.path.dirname(os.path.dirname(os.path.realpath(__file__)))
# The folders of a crate that the prover reads.
PARTS = ("src", "specs", "proofs")
# The folders of a crate's mutants.
KINDS = ("wrong-bodies", "by-hand")
# The head of an item, with its name: in a source, and in a file of definitions.
HEADS = {
    ".rt": re.compile(r"^ *(?:pub(?:\([^)]*\))? )?(?:(?:const|unsafe) )*(?:fn|const|static|type|struct|enum|trait) (\w+)", re.M),
    ".antt": re.compile(r"^ *(?:(?:abbrev|unfoldable|def)(?: pub)?|(?:pub )?(?:record|data)) (\w+)", re.M),
}
# The checksums of the crates whose mutants were all refused.
RECORD = f"{TOP}/tools/mutants.txt"
# Of the crates that did not change, the gate tries one mutant in this number.
SHARE = 10
# An error of a proof file about a name that the edit removed. It shows nothing about a contract.
STALE = re.compile(r"has no field|is not in scope|has no `|was not admitted")
# An error of a proof file: the file without its ending, and the text. Further lines of the text are
# indented.
ERROR = re.compile(r"^\./proofs/(\S+)\.antt:\d+:\d+: error: (.*(?:\n[ \t]+.*)*)$", re.M)

# A mutant. `pairs` has the file, the old and the new text of each change. `functions` has the paths
# of the functions that have to be refused; it is empty if any may be. `owned` has what no other
# edit of the round may change; it is empty if the edit changes more than bodies.
Edit = namedtuple("Edit", "name pairs functions owned")
# Edits that are made together: the functions that they change, the complete texts of the changed
# files by path, and the edits.
Round = namedtuple("Round", "owned texts edits")
# A function of a source file: its path as the prover prints it, its first line, the line where its
# body ends, and its cycle of calls.
Function = namedtuple("Function", "path first last cycle")


class BadEdit(Exception):
    """An edit that cannot be tried; the text says why."""


def text_of(file):
    with open(file, encoding="utf-8") as it:
        return it.read()


# The crates


def crates_of():
    """Returns the libraries that each crate uses, by the crate's name."""
    found = {}
    for line in text_of(f"{TOP}/crates.txt").splitlines():
        head, colon, uses = line.partition("#")[0].partition(":")
        if colon:
            found[head.split()[0]] = uses.split()
    return found


def below(crates, name):
    """Returns the crates of the repository that this one stands on, each after those below it."""
    found = []
    for use in crates[name]:
        if use in crates:
            found += [low for low in [*below(crates, use), use] if low not in found]
    return found


def words_of(crates, name):
    """Returns the command `rattle check` for the crate, with the libraries that were built."""
    kit = os.path.dirname(subprocess.run(["rt", "doc"], capture_output=True, text=True, check=True).stdout.strip())
    rlib = lambda it: f"{TOP}/crates/{it}/out/rlib/{it}.rlib"
    lows = below(crates, name)
    for low in lows:
        if not os.path.isdir(rlib(low)):
            sys.exit(f"mutants.py: there is no {rlib(low)}: ./test.sh builds it, and so does rt check in crates/{name}")
    root = "main" if os.path.isfile(f"{TOP}/crates/{name}/src/main.rt") else "lib"
    words = ["--crate-name", name, f"src/{root}.rt", "-L", f"dependency={kit}/rlibs"]
    for use in ["std", *(it for it in crates[name] if it != "std")]:
        words += ["--extern", f"{use}={rlib(use) if use in crates else f'{kit}/rlibs/{use}.rlib'}"]
    for low in lows:
        words += ["-L", f"dependency={os.path.dirname(rlib(low))}"]
    words += ["--antt-project", f"{kit}/rattle/logic/antt-project.json", "--logic-built", f"{kit}/logic_built"]
    return [f"{kit}/bin/rattle", "check", *words, "--links", f"{name}=", "--jobs", "1"]


# The functions of a source file


def module_of(crate, file):
    """Returns the path of a file's module."""
    parts = file.removeprefix("src/").removesuffix(".rt").split("/")
    return "::".join([crate, *(parts if parts not in (["lib"], ["main"]) else [])])


def home_of(crate, folder, own, name):
    """Returns the path of the module with the type of this name.

    The file of the impl is searched first, then all others in order.
    """
    all_files = sorted(os.path.relpath(f"{at}/{it}", folder) for at, _, files in os.walk(f"{folder}/src") for it in files)
    for file in [own, *all_files]:
        if re.search(rf"^(?:pub(?:\([^)]*\))? )?(?:struct|enum) {name}\b", text_of(f"{folder}/{file}"), re.M):
            return module_of(crate, file)
    return crate


def trait_arguments(words):
    """Returns the type arguments of an impl's trait as the prover writes them after its name.

    For `impl<I> Play<LogEntry<I>, u64> for Open` this is `LogEntryU64`. Lifetimes and the
    parameters of the impl are left out.
    """
    own = re.match(r"<([^<>]*)>", words)
    parameters = {it.partition(":")[0].strip() for it in own[1].split(",")} if own else set()
    given = re.search(r"^[\w: ]+<(.*)> for ", words[own.end() :] if own else words)
    names = re.findall(r"\(\)|'?\w+(?:::\w+)*", given[1].replace("&", "")) if given else []
    names = ["Unit" if it == "()" else it.split("::")[-1] for it in names if it not in parameters and it[0] != "'"]
    return "".join(it[0].upper() + it[1:] for it in names)


def path_of(crate, folder, file, head):
    """Returns the path that the prover prints for the functions of an impl.

    It is, for an impl
    - of a type: `module::Type`, with the module of the type;
    - of a trait: `module::TypeTrait`, with the module of the impl, and then the trait's arguments;
    - of a type with a reference as argument: `module::Type+T+ref+R`, with the module of the impl;
    - of a type with other arguments: `module::Type+u8`, with the module of the type.
    """
    plain, depth = "", 0
    words = re.sub(r"^(unsafe )?impl\b", "", head)
    for at, byte in enumerate(words):
        depth += byte == "<"
        plain += byte if depth == 0 else ""
        depth -= byte == ">" and words[at - 1] not in "-="
    trait, is_for, name = plain.partition("{")[0].partition(" where ")[0].partition(" for ")
    last = lambda it: it.strip().lstrip("&").strip().split("::")[-1]
    # In an impl for a tuple, or for the unit type, a word stands for the type.
    of_tuple = re.match(r"\s*\((.*)\)\s*$", name)
    if of_tuple:
        return f"{module_of(crate, file)}::{'Tuple' + str(of_tuple[1].count(',') + 1) if of_tuple[1] else 'Unit'}{last(trait)}"
    loans = re.search(rf"\b{last(trait)}<([^<>]*&[^<>]*)>\s*{{", words)
    if loans and not is_for:
        # An impl of a type with a reference as argument has the module of the impl.
        given = (re.sub(r"&('\w+ )?", "ref+", it.strip()) for it in loans[1].split(","))
        return f"{module_of(crate, file)}::{'+'.join((last(trait), *given))}"
    others = re.match(r" ([\w:]+)<([^<>&']+)>\s*{", words)
    if others and not is_for:
        given = (it.strip() for it in others[2].split(","))
        return f"{home_of(crate, folder, file, last(trait))}::{'+'.join((last(trait), *given))}"
    return f"{module_of(crate, file)}::{last(name)}{last(trait)}{trait_arguments(words)}" if is_for else f"{home_of(crate, folder, file, last(trait))}::{last(trait)}"


def functions_of(crate, folder, file, text):
    """Returns the functions of a source file."""
    found, inside, cycle = [], None, None
    lines = text.split("\n")
    for at, line in enumerate(lines):
        if re.match(r"(unsafe )?impl\b", line):
            inside = path_of(crate, folder, file, line)
        elif trait := re.match(r"(?:pub(?:\([^)]*\))? )?trait (\w+)", line):
            inside = f"{module_of(crate, file)}::{trait[1]}"
        elif line == "}":
            inside = None
        marked = re.match(r"\s*#\[cycle\((\w+)\)\]", line)
        cycle = marked[1] if marked else cycle
        begun = re.match(r"(\s*)(?:pub(?:\([^)]*\))? )?(?:const )?(?:unsafe )?fn (\w+)", line)
        if begun:
            indent, name = begun.groups()
            last = next((to for to in range(at, len(lines)) if lines[to] == f"{indent}}}"), len(lines))
            found.append(Function(f"{inside or module_of(crate, file)}::{name}", at, last, cycle))
            cycle = None
    return found


@functools.lru_cache
def paths_of(crate, folder):
    """Returns the paths of all functions of a crate."""
    files = [os.path.relpath(f"{at}/{it}", folder) for at, _, files in os.walk(f"{folder}/src") for it in files if it.endswith(".rt")]
    return {it.path for file in files for it in functions_of(crate, folder, file, text_of(f"{folder}/{file}"))}


def body_of(function, lines):
    """Returns the line where a function's body begins.

    That is a brace alone on its line, after clauses, or else a brace at the end of a line.
    """
    own = range(function.first, function.last)
    indent = re.match(r"\s*", lines[function.first])[0]
    alone = (at for at in own if lines[at] == f"{indent}{{")
    return next(alone, next((at for at in own if lines[at].endswith(" {") and not lines[at].strip().startswith(("requires", "ensures"))), function.last))


def function_at(crate, folder, file, text, at, with_head):
    """Returns the function whose body has this position of the text, or None.

    With `with_head` a position in the head of a function counts too.
    """
    line = text.count("\n", 0, at)
    lines = text.split("\n")
    # The last one that begins before the position is the right one. A declaration in a trait has no
    # body, so its end would be taken to be that of the next function.
    begun = [it for it in functions_of(crate, folder, file, text) if it.first <= line]
    return begun[-1] if begun and (with_head or body_of(begun[-1], lines) <= line) and line <= begun[-1].last else None


# The edits


def read_edit(crate, folder, path):
    """Returns the edit of this file. Raises BadEdit if it is faulty."""
    file, old, pairs, named = None, None, [], set()
    for line in text_of(path).splitlines():
        word, _, text = line.partition(": ")
        if word == "file":
            file = text
        elif word == "refused":
            named.add(f"{crate}::{text}")
        elif word == "old":
            old = text
        elif word == "new" and file and old is not None:
            pairs.append((file, old, text))
            old = None
        else:
            raise BadEdit(f"{path}: '{line}' is no line of an edit")
    if not pairs or old is not None:
        raise BadEdit(f"{path}: it has no whole pair of an old and a new text")
    unknown = sorted(named - paths_of(crate, folder)) if named else []
    if unknown:
        raise BadEdit(f"{path}: there is no function {unknown[0]}")
    # If the edit names the functions to be refused, a change of a head counts as one of its
    # function.
    functions = functions_changed(crate, folder, path, pairs, bool(named))
    owned = set() if None in functions else {it.cycle or it.path for it in functions}
    return Edit(os.path.basename(path).removesuffix(".edit"), pairs, named or {it.path for it in functions if owned}, owned)


def functions_changed(crate, folder, path, pairs, with_heads):
    """Returns the functions whose bodies, or heads if asked for, the pairs change.

    None is among them if something else is changed.
    """
    texts, found = {}, set()
    for file, old, new in pairs:
        text = texts.get(file) or text_of(f"{folder}/{file}")
        if text.count(old) != 1:
            raise BadEdit(f"{path}: the old text stands {text.count(old)} times in {file}: {old}")
        found.add(function_at(crate, folder, file, text, text.find(old), with_heads) if file.endswith(".rt") else None)
        texts[file] = text.replace(old, new)
    # Without line numbers, because an earlier pair may have moved the lines of a function.
    return {it and it._replace(first=0, last=0) for it in found}


def items_of(folder, path):
    """Returns the names of the items that an edit changes."""
    texts, items, file, old = {}, set(), None, None
    for word, text in re.findall("^(file|old|new): (.*)$", text_of(path), re.M):
        if word == "file":
            file = text
        elif word == "old":
            old = text
        else:
            before, _, after = (texts.get(file) or text_of(f"{folder}/{file}")).partition(old)
            items.update(HEADS[os.path.splitext(file)[1]].findall(before + old)[-1:])
            texts[file] = before + text + after
    return items


def faults_of_names(crate):
    """Returns the number of mutants of a crate, and the faults of their names."""
    folder, names, faults = f"{TOP}/crates/{crate}", [], []
    plain = lambda it: it.replace("_", "").lower()
    for path in mutants_of(crate, (*KINDS, "must-fail")):
        name = os.path.basename(path)
        function = re.fullmatch(r"([a-z0-9_]+?)__[a-z0-9][a-z0-9_]*\.edit", name)
        items = items_of(folder, f"{folder}/{path}")
        if not function or plain(function[1]) not in map(plain, items):
            faults.append(f"{crate}/{path}: BAD NAME: it is not FUNCTION__MUTATION.edit for {' or '.join(sorted(items))}")
        elif name in names:
            faults.append(f"{crate}/{path}: BAD NAME: another mutant of the crate has it")
        names.append(name)
    return len(names), faults


def changed(folder, texts, edit):
    """Returns the changed files after this edit, or None if it cannot be made.

    It cannot if one of its old texts does not occur exactly once.
    """
    texts = dict(texts)
    for file, old, new in edit.pairs:
        text = texts.get(file) or text_of(f"{folder}/{file}")
        if text.count(old) != 1:
            return None
        texts[file] = text.replace(old, new)
    return texts


def rounds_of(folder, edits):
    """Returns the edits in rounds.

    No two edits of a round change the same function, or functions of the same cycle of calls. An
    edit that changes more than bodies is alone in its round.
    """
    rounds = []
    for edit in edits:
        for at, it in enumerate(rounds):
            texts = changed(folder, it.texts, edit)
            if texts and edit.owned and it.owned and not it.owned & edit.owned:
                rounds[at] = Round(it.owned | edit.owned, texts, [*it.edits, edit])
                break
        else:
            rounds.append(Round(edit.owned, changed(folder, {}, edit), [edit]))
    return rounds


# Reading the output of the prover


def refused_by_itself(said):
    """Reads the output of the prover.

    Returns the functions that are refused for their own bodies, those that are refused only for a
    removed name, each with the reason, and all functions that were checked.
    """
    errors, lost, lemmas = {}, {}, []
    for file, lines in ERROR.findall(said):
        folder, text = os.path.dirname(file), " ".join(lines.split())
        # A lemma next to the proofs of functions is about definitions only, so it fails if an edit
        # changes one of them. The prover then reports the proofs that use it as not admitted.
        if os.path.basename(file) not in ("Answers", "Invariants") and not STALE.search(text):
            lemmas.append(text)
        # Functions of a cycle of calls have their proofs in one folder, and the name of a goal
        # there begins with the name of its function. A function that calls only itself, directly or
        # in its closures, has a folder with its own name.
        in_cycle = re.match(r"(.*/)?\+(\S+) `(\w+)-", f"{folder} {text}")
        places = [f"{in_cycle[1] or ''}{name}" for name in {in_cycle[3], *re.findall(r"\w+", in_cycle[2])}] if in_cycle else [folder]
        for place in places:
            (lost if STALE.search(text) else errors).setdefault(place, text)
    refused, stale, checked = {}, {}, set()
    for path, verdict in re.findall(r"^fn ([\w:+]+): (.*)$", said, re.M):
        place = "/".join(path.split("::")[1:])
        # A closure counts as its function.
        path = re.sub(r"\bfn::(\w+)::.*", r"\1", path)
        checked.add(path)
        open_goal = re.search(r"`search` did not prove .*|expected .*", verdict.partition("; it calls ")[0])
        name = path.split("::")[-1]
        of_others = "/+" in verdict and f"/+{name}/" not in verdict and name not in re.findall(r"`(\w+)-[^`]*`", verdict)
        if open_goal and not of_others:
            refused[path] = open_goal[0]
        elif verdict.startswith("not proved") and place in errors:
            refused[path] = errors[place]
        elif verdict.startswith("not proved") and place in lost and lemmas and "was not admitted" in lost[place]:
            refused[path] = lemmas[0]
        elif verdict.startswith("not proved") and place in lost:
            stale[path] = lost[place]
    return refused, stale, checked


def only(crate, edits):
    """Returns the options that restrict a check to the functions that have to be refused.

    The prover also checks the functions that they call. Without options it checks the whole crate.
    """
    words = []
    for path in sorted({path for it in edits for path in it.functions}):
        words += ["--only", path.removeprefix(f"{crate}::")]
    return words


def write_all(room, texts):
    for file, text in texts.items():
        with open(f"{room}/{file}", "w", encoding="utf-8") as it:
            it.write(text)


def tried(command, room, kept, texts):
    """Returns the output of the prover for the crate in this folder, with some files replaced."""
    were = {file: text_of(f"{room}/{file}") for file in texts}
    write_all(room, texts)
    ran = subprocess.run([*command, "--incremental", kept], cwd=room, stdin=subprocess.DEVNULL, stdout=subprocess.PIPE, stderr=subprocess.STDOUT, text=True, errors="replace")
    write_all(room, were)
    return ran.stdout


def judged(edits, said):
    """Returns, for each edit of a round, whether it was refused, and a message."""
    lines = said.rstrip("\n").split("\n")
    if not lines[-1].startswith(("logic=", "only=")):
        why = next((it for it in lines if re.search(r"\berror\b", it)), lines[-1])
        return [(False, f"{it.name}: BAD EDIT: this round did not reach the prover: {why[:200]}") for it in edits]
    refused, stale, checked = refused_by_itself(said)
    found = []
    for edit in edits:
        unknown = sorted(edit.functions - checked)
        own = sorted(edit.functions & refused.keys() if edit.functions else refused)
        if unknown:
            found.append((False, f"{edit.name}: BAD EDIT: the prover names no function {unknown[0]}"))
        elif not own and edit.functions & stale.keys():
            at = sorted(edit.functions & stale.keys())[0]
            found.append((False, f"{edit.name}: REFUSED FOR A LOST NAME ALONE, which shows nothing: {at}: {stale[at][:120]}"))
        elif not own:
            found.append((False, f"{edit.name}: NOT REFUSED: {', '.join(sorted(edit.functions)) or 'the crate'} is still proved with this edit"))
        else:
            found.append((True, f"{edit.name}: refused, as it must be: {own[0]}: {refused[own[0]][:120]}"))
    changed_here = {path for it in edits for path in it.functions}
    if all(it.owned for it in edits):
        found += [(False, f"{path} is refused, and no edit of this round changes it: {refused[path][:120]}") for path in sorted(refused.keys() - changed_here)]
    return found


def tell(crate, found):
    """Prints the results of some edits. Returns how many were refused, and how many were not."""
    for is_refused, text in found:
        print(f"{crate}: {text}", flush=True, file=sys.stdout if is_refused else sys.stderr)
    passed = sum(is_refused for is_refused, _ in found)
    return passed, len(found) - passed


def results_of(crates, crate, work, it):
    """Returns what the prover says of a round, by the copy of the crate in this folder."""
    command = [*words_of(crates, crate), *only(crate, it.edits)]
    return judged(it.edits, tried(command, f"{work}/crate", f"{work}/kept", it.texts))


def try_crate(crates, crate, paths):
    """Tries these edits of a crate and prints the results of each round.

    Returns how many were refused, and how many were not.
    """
    folder = f"{TOP}/crates/{crate}"
    edits, found = [], []
    for path in paths:
        try:
            edits.append(read_edit(crate, folder, f"{folder}/{path}"))
        except BadEdit as why:
            found.append((False, f"BAD EDIT: {why}"))
    if found:
        return tell(crate, found)
    counts = []
    with tempfile.TemporaryDirectory(prefix="mutants-") as work:
        for part in PARTS:
            if os.path.isdir(f"{folder}/{part}"):
                shutil.copytree(f"{folder}/{part}", f"{work}/crate/{part}")
        if os.path.isdir(f"{folder}/out/incremental"):
            shutil.copytree(f"{folder}/out/incremental", f"{work}/kept")
        for it in rounds_of(folder, edits):
            results = results_of(crates, crate, work, it)
            for at, edit in enumerate(it.edits):
                if not results[at][0] and len(it.edits) > 1:
                    results[at] = results_of(crates, crate, work, Round(edit.owned, changed(folder, {}, edit), [edit]))[0]
            counts.append(tell(crate, results))
    return tuple(map(sum, zip(*counts)))


def lanes():
    """Returns the number of parallel checks: one per processor, if there are 4 GB for each."""
    free = re.search(r"MemAvailable:\s+(\d+)", text_of("/proc/meminfo"))
    return max(1, min(len(os.sched_getaffinity(0)), int(free[1]) // 4_000_000))


def mutants_of(crate, kinds=KINDS):
    """Returns the paths of the crate's mutants in these folders, below its own."""
    folders = [(kind, f"{TOP}/crates/{crate}/{kind}") for kind in kinds]
    return [f"{kind}/{it}" for kind, folder in folders if os.path.isdir(folder) for it in sorted(os.listdir(folder))]


# Which mutants to try


def logic():
    """Returns the logic of the toolchain, as `rt version` names it.

    Toolchains with the same logic give the same verdicts.
    """
    said = subprocess.run(["rt", "version"], capture_output=True, text=True, check=True).stdout
    return said.strip().partition(" logic ")[2]


def sum_of(crate, line, of_logic):
    """Returns the checksum of a crate with this line of crates.txt: its sources and mutants."""
    whole = hashlib.sha256(repr((of_logic, line)).encode())
    for part in (*PARTS, *KINDS):
        for at, folders, files in os.walk(f"{TOP}/crates/{crate}/{part}"):
            folders.sort()
            for name in sorted(files):
                path = f"{at}/{name}"
                with open(path, "rb") as it:
                    whole.update(repr((os.path.relpath(path, f"{TOP}/crates/{crate}"), it.read())).encode())
    return whole.hexdigest()[:32]


def sums_of(crates):
    """Returns the checksum of each crate that has mutants."""
    of_logic = logic()
    return {it: sum_of(it, " ".join(crates[it]), of_logic) for it in crates if mutants_of(it)}


def recorded():
    """Returns the recorded checksums, by crate."""
    lines = [it.split() for it in text_of(RECORD).splitlines() if it and not it.startswith("#")] if os.path.isfile(RECORD) else []
    if any(len(it) != 2 for it in lines):
        sys.exit(f"mutants.py: {RECORD}: a line is not a crate and its sum")
    return dict(lines)


def write_record(file, sums):
    """Writes these checksums as a record."""
    with open(f"{file}.new", "w", encoding="utf-8") as it:
        it.write("# The sum of each crate's sources for which all of its mutants were refused; tools/mutants.py --record writes this file.\n")
        it.writelines(f"{crate} {sum}\n" for crate, sum in sorted(sums.items()))
    os.replace(f"{file}.new", file)


def chosen(sums, known):
    """Returns the crates whose mutants the gate tries, as two lists.

    The first has the crates that changed since they were recorded. The second has some of the
    others, with about a tenth of their mutants: each crate, in their order, whose mutants fit into
    what is left of the tenth, or else the first crate. Unrecorded crates come before the recorded
    ones. Apart from that, the place of a crate in the order depends on its own checksum only, so
    that the name of a mutant elsewhere cannot choose which are tried.
    """
    changed = [it for it in sums if it in known and known[it] != sums[it]]
    others = [it for it in sums if it not in changed]
    others.sort(key=lambda it: (it in known, hashlib.sha256(f"{it} {sums[it]}".encode()).hexdigest()))
    left, tenth = -(-sum(len(mutants_of(it)) for it in others) // SHARE), []
    for it in others:
        if len(mutants_of(it)) <= left:
            tenth.append(it)
            left -= len(mutants_of(it))
    return changed, tenth or others[:1]


def state_of(crate, sums, known):
    """Returns `unrecorded`, `unchanged` or `changed`, by comparing a crate with the record."""
    if crate not in known:
        return "unrecorded"
    return "unchanged" if known[crate] == sums[crate] else "changed"


def arguments():
    """Reads the command line, and returns it with all crates."""
    reader = argparse.ArgumentParser(description="Tries mutants, which the prover must refuse.")
    which = reader.add_mutually_exclusive_group(required=True)
    which.add_argument("--all", action="store_true", help="all mutants, of all crates or of the named ones")
    which.add_argument("--changed", action="store_true", help="those of the crates that changed, and a tenth of the others")
    which.add_argument("--list", action="store_true", help="print the crates and try nothing")
    which.add_argument("--check-names", action="store_true", help="check the names of all mutants and try nothing")
    record = reader.add_mutually_exclusive_group()
    record.add_argument("--record", dest="record_to", action="store_const", const=RECORD, help="record the crates whose mutants were all refused")
    record.add_argument("--record-to", metavar="FILE", help="write the new record into this file")
    reader.add_argument("names", nargs="*", metavar="NAME", help="a crate, with --all")
    asked, crates = reader.parse_args(), crates_of()
    for name in asked.names:
        if name not in crates:
            reader.error(f"there is no crate {name}")
    if asked.names and not asked.all:
        reader.error("names of crates can only be used with --all")
    if asked.record_to and not os.path.isdir(os.path.dirname(asked.record_to) or "."):
        reader.error(f"there is no folder for {asked.record_to}")
    return asked, crates


def named(asked, sums, known):
    """Returns the crates whose mutants are tried, and prints them for --changed."""
    if asked.all:
        return [it for it in asked.names or sums if mutants_of(it)]
    changed, tenth = chosen(sums, known)
    print(f"mutants.py: changed since their mutants were refused: {' '.join(changed) or 'none'}; of the others: {' '.join(tenth) or 'none'}", flush=True)
    unrecorded = [it for it in sums if it not in known]
    if unrecorded:
        print(f"mutants.py: the mutants of these crates were never all tried at once: {' '.join(unrecorded)}", flush=True)
    return changed + tenth


def check_names(crates):
    """Prints the faults of the names of all mutants. Returns the exit status."""
    found = [faults_of_names(it) for it in crates]
    faults = [it for _, them in found for it in them]
    print("".join(f"{it}\n" for it in faults), end="", file=sys.stderr)
    print(f"{sum(count for count, _ in found) - len(faults)} passed, {len(faults)} failed")
    return 1 if faults else 0


def main():
    asked, crates = arguments()
    if asked.check_names:
        return check_names(crates)
    sums, known = sums_of(crates), recorded()
    if asked.list:
        for name in sums:
            print(name, len(mutants_of(name)), state_of(name, sums, known))
        return 0
    # The crates with the most mutants are first, because they take longest.
    names = sorted(named(asked, sums, known), key=lambda it: -len(mutants_of(it)))
    with ThreadPoolExecutor(lanes()) as pool:
        counts = dict(zip(names, pool.map(lambda it: try_crate(crates, it, mutants_of(it)), names)))
    if asked.record_to:
        # A crate that changed during the run is not recorded.
        after = sums_of(crates)
        kept = {it: sum for it, sum in known.items() if it in sums and it not in counts}
        write_record(asked.record_to, kept | {it: sums[it] for it, (_, failed) in counts.items() if not failed and after[it] == sums[it]})
        print(f"mutants.py: the new record is in {asked.record_to}", flush=True)
    passed, failed = map(sum, zip((0, 0), *counts.values()))
    if not passed + failed:
        print("mutants.py: there is no mutant to try", file=sys.stderr)
    print(f"{passed} passed, {failed} failed")
    return 1 if failed or not passed else 0


if __name__ == "__main__":
    sys.exit(main())
