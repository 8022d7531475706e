#!/usr/bin/env python3
"""respell: brings the definitions and lemmas of the crates to snake case, once, right after the kit's port.py.

usage: python3 tools/respell.py --prepare FOLDER  at the top of a repository, committed: lays each must-fail edit, carried out, into one of
                                                  the repositories FOLDER/0 to FOLDER/3, for port.py to turn there
       python3 tools/respell.py --edits FOLDER    at the top of that repository, once port.py has run there too and nothing is committed since

A definition or a lemma in camel case, or with dashes, gets underscores; where the name is taken by a definition, a lemma gets
`_lem` behind it. Functions of src/, exported names, strings, inputs and outputs keep their names. A must-fail edit is carried
out on the committed file, the result is turned as that file was, and what then differs from the turned file is the edit."""
import collections
import difflib
import os
import pathlib
import re
import subprocess
import sys

TOKEN = r"[A-Za-z₀-₉α-ωΑ-Ω_][\w'₀-₉-]*"
LIBRARIES = ("mathlib", "native", "lib", "Prim", "borrow", "denote", "seplogic", "Rattle.std", "Rattle.core", "sem", "logic")
KEYWORDS = r"(?:pub |abbrev |unfoldable |record |data )*"
DECLARED = re.compile(rf"^( *)({KEYWORDS})({TOKEN})(?:(?= \{{?\w* ?\w*\}}? ?:(?:\s|$))|(?= :(?:\s|$))|(?<=record )(?= )|(?<=data )(?= ))", re.M)
MODULES = {("line", "proofs", "Reading"): "ReadingLaws", ("promises", "specs", "Contracts"): "EntryPoints",
           ("promises", "proofs", "Contracts"): "EntryPoints"}


def is_law(path):
    """A file of definitions or laws, and not the proof of one function."""
    parts = path.parts
    return parts[2] == "specs" or (parts[2] == "proofs" and len(parts) == 4)


def antt():
    return sorted(p for p in pathlib.Path("crates").glob("*/*/**/*.antt") if p.parts[2] in ("specs", "proofs"))


def rattle():
    return sorted(pathlib.Path("crates").glob("*/src/**/*.rt"))


def declared(text):
    for indent, keywords, name in DECLARED.findall(text):
        if name in ("use", "module", "pub", "mod", "where", "let", "in", "unfolding"):
            continue
        yield name


def fields(text):
    """The names of the fields of a file's records."""
    inside = None
    for line in text.split("\n"):
        indent = len(line) - len(line.lstrip())
        if re.match(r" *(pub )?record ", line):
            inside = indent
        elif inside is not None and line.strip():
            if indent <= inside:
                inside = None
            else:
                yield from declared(line)


def imported(text):
    """The names that a file brings from the kit's libraries."""
    names = set()
    for module, listed in re.findall(r"^(?:pub )?(?:ghost )?use ([\w.·]+?)\.?\{([^}]*)\}", text, re.M):
        if module.startswith(LIBRARIES):
            for name in listed.split(","):
                names |= set(part.strip() for part in name.split(" as "))
    return names


def snake(name):
    name = re.sub(r"([a-z0-9])([A-Z])", r"\1_\2", name)
    name = re.sub(r"([A-Z])([A-Z][a-z])", r"\1_\2", name)
    return name.lower().replace("-", "_")


def is_old(name):
    return (name[0].islower() and re.search(r"[a-z0-9'][A-Z]", name)) or ("-" in name and name[0].islower())


def renames():
    own, taken, members = collections.defaultdict(set), set(), {}
    for path in antt():
        text = path.read_text(encoding="utf-8")
        for name in declared(text):
            if is_law(path):
                own[name].add(str(path))
            taken.add(name)
        members[str(path)] = set(fields(text))
    brought = set()
    for path in antt() + rattle():
        brought |= imported(path.read_text(encoding="utf-8"))
    to = {}
    camel = [n for n in own if is_old(n) and "-" not in n]
    for name in sorted(camel):
        to[name] = snake(name)
    for name in sorted(n for n in own if is_old(n) and "-" in n):
        new = snake(name)
        if new in taken or new in to.values() or new in brought:
            new += "_lem"
        to[name] = new
    return to, met(to, own, members)


def met(to, own, members):
    """The lemmas, each with the files that declare it, whose name a definition gets that one of their readers speaks of."""
    texts = {str(path): path.read_text(encoding="utf-8") for path in antt()}
    laws = collections.defaultdict(set)
    for old, new in to.items():
        for path in own.get(new, ()):
            if "/proofs/" not in path or new in members[path]:
                continue
            crate, module = path.split("/")[1], pathlib.Path(path).stem
            brings = re.compile(rf"use Rattle\.{crate}\.proofs\.{module}\.\{{[^}}]*\b{new}\b[^}}]*\}}")
            readers = [text for name, text in texts.items() if name == path or brings.search(text)]
            if any(old in re.findall(TOKEN, text) for text in readers):
                laws[new].add(path)
    return laws


def moved(path, text, laws):
    """The lemmas that stand, or are brought, under a name that a definition has now."""
    names = {name for name, paths in laws.items() if str(path) in paths}
    for crate, module, listed in re.findall(r"^(?:pub )?use Rattle\.(\w+)\.proofs\.(\w+)\.\{([^}]*)\}", text, re.M):
        brought = {name.split(" as ")[0].strip() for name in listed.split(",")}
        names |= {name for name in brought if f"crates/{crate}/proofs/{module}.antt" in laws.get(name, ())}
    return names


def turn(text, to, keep=frozenset()):
    """Each whole word that has a new name gets it."""
    return re.sub(TOKEN, lambda m: m[0] if m[0] in keep else to.get(m[0], m[0]), text)


def turn_file(path, text, to, laws):
    """A file of Rattle or antt with the new names; what it brings from the kit's libraries keeps its name."""
    keep = imported(text)
    for name in moved(path, text, laws):  # a field of that name, in a file that the lemma does not stand in, keeps it
        here = str(path) in laws[name]
        text = re.sub(rf"(?<![\w'.-]){name}(?![\w'-])" + ("" if here else "(?! =)"), f"{name}_lem", text)
    if path.suffix == ".antt" and not is_law(path):
        keep = keep | set(declared(text))  # goals of one function have the prover's names
    text = turn(text, to, keep)
    for (crate, folder, old), new in MODULES.items():
        text = re.sub(rf"\bRattle\.{crate}\.{folder}\.{old}\b", f"Rattle.{crate}.{folder}.{new}", text)
        if path.parts[1:3] == (crate, folder) and path.name == "Lib.antt":
            text = re.sub(rf"\bmod {old}$", f"mod {new}", text, flags=re.M)
    return text


def committed(path, seen={}):
    if path not in seen:
        seen[path] = subprocess.run(["git", "show", f"HEAD:{path}"], capture_output=True, text=True, check=True).stdout
    return seen[path]


def pairs(edit):
    """The file and the two texts of each pair of lines, and the lines before them that say what is wrong."""
    file = old = None
    for line in edit.read_text(encoding="utf-8").split("\n"):
        if line.startswith("file: "):
            file = line[6:]
        elif line.startswith("old: "):
            old = line[5:]
        elif line.startswith("new:"):
            yield file, old, line[5:]


def edits():
    return sorted(pathlib.Path("crates").glob("*/must-fail/*.edit"))


def carried_out(edit):
    """What the edit makes of each committed file."""
    files = {}
    for file, old, new in pairs(edit):
        text = files.get(file) or committed(f"crates/{edit.parts[1]}/{file}")
        assert text.count(old) == 1, f"{edit}: {old}"
        files[file] = text.replace(old, new, 1)
    return files


def at(folder, number):
    return folder / str(number % 4) / "crates" / f"e{number:04}"


def write(path, text):
    path.parent.mkdir(parents=True, exist_ok=True)
    path.write_text(text, encoding="utf-8")


def prepare(folder):
    """Each edit, carried out, as a crate of its own, beside the code of the others, by which port.py knows them."""
    for number, edit in enumerate(edits()):
        for file, text in carried_out(edit).items():
            write(at(folder, number) / file, text)
        if not (at(folder, number) / "src" / "lib.rt").exists():
            write(at(folder, number) / "src" / "lib.rt", "// no code\n")
    for quarter in sorted(folder.iterdir()):
        for path in rattle():
            write(quarter / path, path.read_text(encoding="utf-8"))
        write(quarter / "crates.txt", "".join(f"{crate.name}: \n" for crate in sorted((quarter / "crates").iterdir())))
        for command in (["init", "-q"], ["add", "-A"], ["-c", "user.name=x", "-c", "user.email=x@x", "commit", "-qm", "edits"]):
            subprocess.run(["git", *command], cwd=quarter, check=True)


def turned_edit(edit, folder, number, to, laws, turned):
    """The edit's text for the turned files, or None where its lines do not fit one to one."""
    said = [line for line in edit.read_text(encoding="utf-8").split("\n") if line.startswith("#")]
    lines = [turn(line, to) for line in said]
    for file in carried_out(edit):
        path = pathlib.Path("crates", edit.parts[1], file)
        right = turned[str(path)].split("\n")
        wrong = turn_file(path, (at(folder, number) / file).read_text(encoding="utf-8"), to, laws).split("\n")
        lines.append(f"file: {new_path(path).relative_to(pathlib.Path('crates', edit.parts[1]))}")
        whole = "\n".join(right)
        for kind, a, b, c, d in difflib.SequenceMatcher(None, right, wrong, autojunk=False).get_opcodes():
            if kind == "equal":
                continue
            if b - a != d - c:
                return None, f"{edit}: {right[a:b]} / {wrong[c:d]}"
            for old, new in zip(right[a:b], wrong[c:d]):
                if whole.count(old) != 1:
                    return None, f"{edit}: not once: {old}"
                lines += [f"old: {old}", f"new: {new}"]
    return "\n".join(lines) + "\n", None


def new_path(path):
    crate, folder, stem = path.parts[1], path.parts[2], path.stem
    new = MODULES.get((crate, folder, stem))
    return path.with_name(f"{new}{path.suffix}") if new and len(path.parts) == 4 else path


def main():
    if sys.argv[1] == "--prepare":
        return prepare(pathlib.Path(sys.argv[2]))
    folder = pathlib.Path(sys.argv[2])
    to, laws = renames()
    turned = {}
    for path in antt() + rattle():
        turned[str(path)] = turn_file(path, path.read_text(encoding="utf-8"), to, laws)
    bad = []
    texts = {}
    for number, edit in enumerate(edits()):
        text, fault = turned_edit(edit, folder, number, to, laws, turned)
        if fault:
            bad.append(fault)
        else:
            texts[edit] = text
    for name, text in turned.items():
        path = pathlib.Path(name)
        path.write_text(text, encoding="utf-8")
        if new_path(path) != path:
            os.rename(path, new_path(path))
    for edit, text in texts.items():
        edit.write_text(text, encoding="utf-8")
    for page in [pathlib.Path("README.md"), *pathlib.Path("docs").glob("**/*.md"), *pathlib.Path("tests").glob("*/README.md")]:
        text = page.read_text(encoding="utf-8")
        page.write_text(re.sub(r"`[^`]*`", lambda m: turn(m[0], to), text), encoding="utf-8")
    print(f"respell: {len(to)} names, {len(texts)} edits; by hand: {len(bad)}")
    print("\n".join(bad))


main()
