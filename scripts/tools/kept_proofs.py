"""What the last proof of each crate on this machine said and took, by what the crate is made of.

`rt ci` proves nothing twice on one machine, and of a proof that an earlier run made it doesn't print the verdict again. So scripts/tools/prove
keeps the verdict and the processor time in the user's cache: for the record of a gate, and for the weights of the crates.
"""

import functools
import hashlib
import os
import pathlib
import re
import subprocess
import tempfile

ROOT = pathlib.Path(__file__).resolve().parents[2]
PARTS = ("src", "specs", "proofs", "c")
LINE = re.compile(r"(functions=\d+) seconds=(\d+\.\d)\n")


def folder():
    """Returns where proofs are kept, which need not be there."""
    return pathlib.Path(os.environ.get("XDG_CACHE_HOME") or pathlib.Path.home() / ".cache") / "lughemra/proofs"


@functools.cache
def kit():
    """Returns which kit proves here."""
    return subprocess.run(["rt", "version"], stdout=subprocess.PIPE, encoding="utf-8", check=True).stdout.strip()


def own_sum(crate, line):
    """Returns a sum over the files of a crate and its line of crates.txt."""
    whole = hashlib.sha256(line.encode())
    for path in sorted(path for part in PARTS for path in (ROOT / "crates" / crate / part).rglob("*") if path.is_file()):
        whole.update(f"{path.relative_to(ROOT)}\0".encode() + hashlib.sha256(path.read_bytes()).digest())
    return whole.hexdigest()


def sums():
    """Returns for each crate a sum over all that its proof is made of: its files, those of the crates that it stands on, and the kit."""
    with open(ROOT / "crates.txt", encoding="utf-8") as file:
        lines = {line.split(":")[0].split()[0]: line.strip() for line in file if ":" in line.split("#")[0]}

    @functools.cache
    def of(crate):
        below = [of(word) for word in lines[crate].split("#")[0].split(":")[1].split() if word in lines]
        return hashlib.sha256("\n".join([kit(), own_sum(crate, lines[crate]), *below]).encode()).hexdigest()

    return {crate: of(crate) for crate in lines}


def keep(crate, of, functions, seconds):
    """Keeps the verdict on a crate, as `functions=8`, and how many seconds of a processor its proof took. `of` is the sum of the crate."""
    folder().mkdir(parents=True, exist_ok=True)
    with tempfile.NamedTemporaryFile("w", dir=folder(), delete=False, encoding="ascii") as file:
        file.write(f"{functions} seconds={seconds:.1f}\n")
    os.replace(file.name, folder() / f"{crate}-{of}")


def kept(crate, of):
    """Returns the verdict that was kept of a crate and the seconds, or None."""
    path = folder() / f"{crate}-{of}"
    found = LINE.fullmatch(path.read_text(encoding="ascii")) if path.is_file() else None
    return (found[1], float(found[2])) if found else None


def all_kept():
    """Returns what is kept of each crate as it stands: its verdict and its seconds."""
    found = {crate: kept(crate, of) for crate, of in sums().items()}
    return {crate: told for crate, told in found.items() if told}
