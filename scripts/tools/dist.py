"""What dist/ holds, and what a gate that passed tells of it. scripts/tools/release has the form of dist/MANIFEST."""

import hashlib
import os
import pathlib
import re
import shutil
import subprocess

from copied_crates import crates_below
from kept_proofs import all_kept

ROOT = pathlib.Path(__file__).resolve().parents[2]
DIST = ROOT / "dist"
MANIFEST = DIST / "MANIFEST"
FOLDER = DIST / "x86_64-linux"
# What the last gate that passed left: its record, which has the form of a MANIFEST, and the shared object that it built.
GATE = ROOT / "out/gate"
RECORD = GATE / "record"
SHARED = "liblughemra.so.0"
STATIC = ROOT / "crates/lughemra/out/liblughemra.a"
# The words that begin the lines of a MANIFEST, of which there are as many as crates, libraries or files, or one.
FACTS = ("sources", "kit", "cc", "gate", "crate", "holds", "static", "file")
SINGLE = ("sources", "kit", "cc", "gate", "static")
# What stands for the verdict on a crate that an earlier run proved, where no record has it.
KEPT = "logic=proved kept"


def listed_programs():
    """Returns the names of the programs that are built, released and packaged."""
    lines = (ROOT / "scripts/programs.txt").read_text(encoding="utf-8").splitlines()
    return [line.split(":")[0] for line in lines if ":" in line and not line.startswith("#")]


def built_files():
    """Returns where each file of dist/ is built, by its name there."""
    places = {name: ROOT / "crates" / name / "out" / name for name in listed_programs()}
    places["index.html"] = ROOT / "page/index.html"
    places["lughemra.h"] = ROOT / "crates/lughemra/include/lughemra.h"
    places[SHARED] = GATE / SHARED
    return dict(sorted(places.items()))


def kept_gate():
    """Returns the folder in which a gate that passed keeps what it built, for a release that is written elsewhere on this machine."""
    return pathlib.Path(os.environ.get("XDG_CACHE_HOME") or pathlib.Path.home() / ".cache") / "lughemra/gate"


def keep_built(folder):
    """Copies the record of a gate that passed, and what it built, into a folder, in the place of what is there."""
    shutil.rmtree(folder, ignore_errors=True)
    folder.mkdir(parents=True)
    for name, path in {**built_files(), STATIC.name: STATIC, RECORD.name: RECORD}.items():
        shutil.copyfile(path, folder / name)


def take_built(folder):
    """Puts what a gate of these sources kept in a folder where that gate had built it."""
    for name, path in {**built_files(), STATIC.name: STATIC, RECORD.name: RECORD}.items():
        if name != "lughemra.h":
            path.parent.mkdir(parents=True, exist_ok=True)
            shutil.copyfile(folder / name, path)
            path.chmod(0o755 if name in listed_programs() else 0o644)


def compiled_crates():
    """Returns the crate that each file of dist/ with compiled code is made of, by the file's name."""
    return dict(sorted({**{name: name for name in listed_programs()}, "index.html": "page", SHARED: "lughemra"}.items()))


def said_by(*words):
    """Returns what a command writes, without the end of its last line."""
    return subprocess.run([str(word) for word in words], cwd=ROOT, stdout=subprocess.PIPE, encoding="utf-8", check=True).stdout.rstrip("\n")


def sources_sum():
    """Returns the SHA-256 of the sources that are here."""
    return said_by(ROOT / "scripts/tools/sources-sum")


def sum_of(path):
    return hashlib.sha256(path.read_bytes()).hexdigest()


# ---- the form of a MANIFEST


def facts(text):
    """Returns the rests of a MANIFEST's lines, in lists by the word that each begins with."""
    found = {word: [] for word in FACTS}
    for line in text.splitlines():
        word, _, rest = line.partition(" ")
        found.setdefault(word, []).append(rest)
    return found


def only(found, word):
    """Returns the rest of the one line that begins with this word, or nothing where there isn't one."""
    return found[word][0] if len(found[word]) == 1 else ""


def file_sums(found):
    """Returns the sums of the files that a MANIFEST names."""
    return {name: told for told, name in (line.split(maxsplit=1) for line in found["file"] if len(line.split()) == 2)}


def faults_of_dist():
    """Returns what is wrong with dist/, by its MANIFEST alone."""
    found = facts(MANIFEST.read_text(encoding="utf-8"))
    wrong = [f"MANIFEST has no line that begins with {word}" for word in FACTS if not found[word]]
    wrong += [f"MANIFEST has a line that begins with {word}" for word in found if word not in FACTS]
    wrong += [f"MANIFEST has {len(found[word])} lines that begin with {word}" for word in SINGLE if len(found[word]) > 1]
    sums = file_sums(found)
    there = {str(path.relative_to(FOLDER)) for path in FOLDER.rglob("*") if not path.is_dir()}
    wrong += [f"{name} is in one of MANIFEST and {FOLDER.relative_to(ROOT)} alone" for name in sorted(there ^ set(sums))]
    wrong += [f"{name} has another sum than MANIFEST names" for name in sorted(there & set(sums)) if sum_of(FOLDER / name) != sums[name]]
    wrong += [f"{name} can't be run" for name in listed_programs() if name in there and not os.access(FOLDER / name, os.X_OK)]
    wrong += [f"{path.relative_to(DIST)} is a link" for path in DIST.rglob("*") if path.is_symlink()]
    return wrong


# ---- what a gate found


class NotProved(Exception):
    """What `rt ci` wrote doesn't tell that each crate is proved."""


def verdicts(log):
    """Takes what `rt ci` wrote, and returns the first words of the verdict on each crate; or KEPT, where an earlier run proved it on this
    machine, of the same files over the same libraries."""
    found = {name: KEPT for name in re.findall(r"^rt: (\w+) is kept: ", log, re.M)}
    for block in re.split(r"^== ", log, flags=re.M)[1:]:
        name, _, rest = block.partition("\n")
        said, ended, _ = ("\n" + rest).partition(f"\nrt: {name} proved\n")
        counts = re.findall(r"^logic=proved(?: \S+)*? (functions=\d+)", said, re.M)
        if ended and counts:
            found[name] = f"logic=proved {counts[-1]}"
    return found


def known_verdicts(sources):
    """Returns the verdicts on crates that were proved before: those of proofs on this machine, or else of a gate of these sources that was kept
    here, or else of dist/ where that is of them."""
    return {**recorded_verdicts(sources), **{crate: f"logic=proved {functions}" for crate, (functions, _) in all_kept().items()}}


def recorded_verdicts(sources):
    """Returns the verdicts of the record of a gate of these sources that was kept on this machine, or else those of dist/ where that is of them."""
    for path in (kept_gate() / RECORD.name, MANIFEST):
        found = facts(path.read_text(encoding="utf-8")) if path.is_file() else {}
        if found and only(found, "sources") == sources:
            return dict(line.split(maxsplit=1) for line in found["crate"])
    return {}


def kit_libraries(crate, kit):
    """Returns the kit's libraries that a crate, and those of this repository that it stands on, are made of."""
    lines = crates_below([crate])
    waiting = {"std"}.union(*(line.split("#")[0].split(":")[1].split() for line in lines.values())) - set(lines)
    found = set()
    while waiting:
        name = waiting.pop()
        found.add(name)
        form = kit / "rlibs" / f"{name}.rlib" / "format"
        if form.is_file():
            waiting |= set(re.findall(r"^dep (\w+)$", form.read_text(encoding="utf-8"), re.M)) - found
    return sorted(found)


def record_of(sources, log):
    """Takes the sum of the sources that a gate began with, and what `rt ci` wrote. Returns the record of the gate."""
    with open(ROOT / "crates.txt", encoding="utf-8") as file:
        crates = sorted(line.split(":")[0].split()[0] for line in file if ":" in line.split("#")[0])
    proved, last = verdicts(log), log.rstrip("\n").rsplit("\n", 1)[-1]
    lacking = [crate for crate in crates if crate not in proved]
    if lacking or not re.fullmatch(r"\d+ passed, 0 failed", last):
        raise NotProved(f"rt ci doesn't tell that {lacking[0]} is proved" if lacking else "the last line of rt ci tells no pass")
    known = known_verdicts(sources) if KEPT in proved.values() else {}
    proved = {crate: known.get(crate, KEPT) if verdict == KEPT else verdict for crate, verdict in proved.items()}
    kit = pathlib.Path(said_by("rt", "doc")).parent
    lines = [f"sources {sources}", f"kit {said_by('rt', 'version')}", f"cc {said_by('cc', '--version').splitlines()[0]}", f"gate {last}"]
    lines += [f"crate {crate} {proved[crate]}" for crate in crates]
    lines += [f"holds {name} {library}" for name, crate in compiled_crates().items() for library in kit_libraries(crate, kit)]
    lines += [f"static {sum_of(STATIC)}  {STATIC.name}"]
    lines += [f"file {sum_of(path)}  {name}" for name, path in built_files().items()]
    return "\n".join([*lines, ""])
