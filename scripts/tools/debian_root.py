"""Makes roots of Debian's suites by debootstrap, and runs commands in them, for scripts/checks/try-release."""

import os
import pathlib
import re
import shutil
import subprocess
import sys

ADDRESS = re.compile(r"^(?:deb\b.*?|URIs:.*?)\s(https?://\S+/debian)/?(?=\s|$)", re.M)
USUAL = "http://deb.debian.org/debian"
# What a command in a root begins with: /proc and /dev, which go when its last process has ended, since the mounts are its own.
BEGIN = 'mount -t proc proc "$0/proc" && mount --rbind /dev "$0/dev" && exec chroot "$0" env -i "$@"'
PATH = "/usr/sbin:/usr/bin:/sbin:/bin"


def mirror():
    """Returns the mirror of Debian that apt uses on this machine."""
    folder = pathlib.Path("/etc/apt")
    for path in [folder / "sources.list", *sorted(folder.glob("sources.list.d/*.sources")), *sorted(folder.glob("sources.list.d/*.list"))]:
        found = ADDRESS.search(path.read_text(encoding="utf-8", errors="replace")) if path.is_file() else None
        if found:
            return found[1]
    return USUAL


def require(script):
    """Ends the script of this name with status 70 where no root can be made."""
    lacking = [f"{command} is not here: apt-get install {package}" for command, package in
               (("debootstrap", "debootstrap"), ("chroot", "coreutils"), ("unshare", "util-linux")) if shutil.which(command) is None]
    if os.geteuid() != 0:
        lacking.append("roots are made and entered by root alone")
    for why in lacking:
        print(f"{script}: {why}", file=sys.stderr)
    if lacking:
        sys.exit(70)


def make(folder, suite):
    """Makes a root of the suite in a folder that isn't there. Raises RuntimeError with the end of what debootstrap wrote."""
    part = folder.with_name(folder.name + ".part")
    shutil.rmtree(part, ignore_errors=True)
    ran = subprocess.run(["debootstrap", "--variant=minbase", suite, str(part), mirror()],
                         stdin=subprocess.DEVNULL, stdout=subprocess.PIPE, stderr=subprocess.STDOUT, encoding="utf-8", check=False)
    if ran.returncode:
        shutil.rmtree(part, ignore_errors=True)
        raise RuntimeError(f"debootstrap of {suite} ended with status {ran.returncode}: {' '.join(ran.stdout.splitlines()[-3:])}")
    part.rename(folder)


def prepare(folder):
    """Lets apt reach the mirror from a root. The date until which a mirror's list is good may be over by this machine's clock."""
    shutil.copyfile("/etc/resolv.conf", folder / "etc/resolv.conf")
    said = 'Acquire::Check-Valid-Until "false";\nAcquire::Check-Date "false";\n'
    (folder / "etc/apt/apt.conf.d/99dates").write_text(said, encoding="utf-8")


def inside(folder, script, seconds=1200):
    """Runs a script of sh in a root. Returns its status and what it wrote. A script that takes longer is ended with all that it began."""
    told = {name: value for name, value in os.environ.items() if name.lower() in ("http_proxy", "https_proxy", "no_proxy")}
    told |= {"PATH": PATH, "HOME": "/root", "LC_ALL": "C.UTF-8", "DEBIAN_FRONTEND": "noninteractive"}
    words = ["unshare", "--mount", "--pid", "--fork", "--kill-child", "sh", "-c", BEGIN, str(folder)]
    words += [*(f"{name}={value}" for name, value in told.items()), "sh", "-ec", script]
    try:
        ran = subprocess.run(words, stdin=subprocess.DEVNULL, stdout=subprocess.PIPE, stderr=subprocess.STDOUT, timeout=seconds,
                             check=False)
    except subprocess.TimeoutExpired as late:
        return 124, f"{(late.stdout or b'').decode(errors='replace')}\nit took longer than {seconds} seconds"
    return ran.returncode, ran.stdout.decode(errors="replace")
