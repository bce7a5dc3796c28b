"""Makes a release twice, compares the bytes, and installs, uses and removes it in a bare Debian root. The gate calls it.

    python3 tools/try_release.py            makes the release and the root
    python3 tools/try_release.py FOLDER     tries the release in FOLDER

It needs to be root, and `mmdebstrap` with Debian's registry for the root, which it keeps in out/debian-root.tar. Without these, or where a
tool that a release needs isn't there, it is left out, and one line says why. If lintian is installed, its errors count too; if qemu is,
the library for aarch64 runs a host program.
"""

from __future__ import annotations

import filecmp
import glob
import os
import re
import shutil
import subprocess
import sys
import tempfile
from typing import Optional

import release
import shared
from packing import proved, tree
from packing.manifest import Refused
from shared import TOP

KEPT = f"{TOP}/out/debian-root.tar"
PACKAGES = "python3,gcc,libc6-dev,pkgconf"
SUITE = "bookworm"
NAMES = ("tlut", "libtlut-host1", "libtlut-host-dev")
SYSTEM = ("/usr/share/doc/tlut/examples", "/usr/share/doc/libtlut-host-dev/examples/filter.c")
# New values of the three coefficients of examples/fir, twice.
COEFFICIENTS = [(5, 7, 6), (2, 4, 1)]
MAP = "tlut map 4 {examples}/fir/fir.blif {examples}/fir/fir.par fir.blif fir.ppc"
FILTER = "./filter fir.ppc " + " ".join(str(it) for values in COEFFICIENTS for it in values)


class Root:
    """A Debian root, what is run in it, and how many checks passed and failed."""

    def __init__(self, folder: str) -> None:
        self.folder, self.passed, self.failed = folder, 0, 0

    def run(self, script: str) -> subprocess.CompletedProcess[str]:
        """Runs a script in the root, in a folder of its own."""
        words = ["chroot", self.folder, "sh", "-c", f"mkdir -p /try && cd /try && {script}"]
        environment = {"PATH": "/usr/local/sbin:/usr/local/bin:/usr/sbin:/usr/bin:/sbin:/bin", "LC_ALL": "C.UTF-8", "HOME": "/root"}
        return subprocess.run(words, env=environment, stdin=subprocess.DEVNULL, capture_output=True, text=True, check=False)

    def check(self, about: str, is_well: bool, shown: str = "") -> None:
        """Counts a check, and shows one that failed."""
        self.passed, self.failed = self.passed + is_well, self.failed + (not is_well)
        if not is_well:
            print(f"FAILED: {about}\n{shown}")

    def prints(self, script: str, wanted: Optional[str] = None) -> str:
        """Checks that a script ends with 0, and prints this. Returns what it printed."""
        ran = self.run(script)
        self.check(script, ran.returncode == 0 and wanted in (None, ran.stdout), f"status {ran.returncode}: {ran.stdout}{ran.stderr}")
        return ran.stdout


def worked_example(program: str, examples: str) -> tuple[str, str]:
    """The worked example of README as a script, and what it prints."""
    with open(f"{TOP}/README.md", encoding="utf-8") as file:
        part = file.read().split("## A worked example")[1]
    script, output = re.findall(r"```(?:sh)?\n(.*?)```", part, re.DOTALL)[:2]
    return script.replace("./tlut", program).replace("examples/", f"{examples}/").strip(), output


def script_of_filter() -> str:
    """The changes that the host program makes, as a script of `bits`."""
    with open(f"{TOP}/examples/fir/fir.par", encoding="utf-8") as file:
        names = [line.split()[0] for line in file if line.strip() and not line.startswith("#")]
    lines = []
    for values in COEFFICIENTS:
        bits = [value >> place & 1 for value in values for place in range(3)]
        lines.append("set " + " ".join(f"{name}={bit}" for name, bit in zip(names, bits)))
    return "\n".join(lines)


def as_writes(lines: str) -> list[str]:
    """The writes of each set, of what `bits` or the host program prints."""
    return [re.sub(r"^set (\d+ \d+ \d+ writes )?\d+ ?", "", line) for line in lines.splitlines() if line.startswith("set ")]


def try_packages(root: Root, version: str) -> None:
    """Installs the packages, uses all parts, and removes them."""
    examples, source = SYSTEM
    root.prints("dpkg -i " + " ".join(f"/release/{name}_*_amd64.deb" for name in NAMES))
    root.check("tlut --version", root.run("tlut --version").stdout.startswith(f"TLUT Flow {version}, commit "))
    root.prints("tlut-flow --version", f"tlut-flow {version}\n")
    root.prints(*worked_example("tlut", examples))
    root.prints(f"tlut --compact run 2 {examples}/and2/and2.blif {examples}/and2/none.par {examples}/and2/one.scr 0 0", "luts 1 bits 4 depth 1\ncycle 1 -\n")
    root.prints(MAP.format(examples=examples), "luts 64 bits 484 depth 5\n")
    root.prints(f"printf '{script_of_filter()}\\n' > fir.scr")
    lines = root.prints("tlut bits fir.ppc fir.scr")
    root.prints("tlut-flow bits fir.ppc fir.scr", lines)
    root.prints(f"cc {source} $(pkg-config --cflags --libs tlut_host) -o filter")
    root.check("the host program", as_writes(root.prints(FILTER)) == as_writes(lines) != [])
    root.prints("pkg-config --modversion tlut_host", f"{version}\n")
    root.prints("gzip -t /usr/share/man/man1/tlut.1.gz /usr/share/man/man1/tlut-flow.1.gz /usr/share/man/man1/tlut-compact.1.gz")
    for name in NAMES:
        root.prints(f"cd / && grep -E '^[0-9a-f]{{64}}  ' usr/share/doc/{name}/PROVED.txt | sha256sum --quiet -c", "")
    root.prints(f"dpkg --verify {' '.join(NAMES)}", "")
    root.prints(f"dpkg --purge {' '.join(reversed(NAMES))}")
    root.prints("find / -xdev -path /proc -prune -o -path /release -prune -o -path /var/log -prune -o -name '*tlut*' -print", "")


def try_archive(root: Root, version: str) -> None:
    """Unpacks the archive, and uses it where it is."""
    top = f"/opt/tlut-{version}-x86_64"
    examples = f"{top}/share/doc/tlut/examples"
    root.prints(f"tar -xzf /release/tlut-{version}-x86_64.tar.gz -C /opt")
    root.prints(f"cd {top} && grep -E '^[0-9a-f]{{64}}  ' PROVED.txt | sha256sum --quiet -c", "")
    root.prints(*worked_example(f"{top}/bin/tlut", examples))
    lines = root.prints(f"{top}/bin/tlut-flow bits fir.ppc fir.scr")
    paths = f"PKG_CONFIG_PATH={top}/lib/pkgconfig"
    root.prints(f"cc {examples}/host/filter.c $({paths} pkg-config --cflags --libs tlut_host) -o filter")
    root.check("the host program of the archive", as_writes(root.prints(f"LD_LIBRARY_PATH={top}/lib {FILTER}")) == as_writes(lines) != [])
    if shutil.which("qemu-aarch64"):
        library = f"{root.folder}{top}/lib/aarch64-linux-gnu/libtlut_host.a"
        words = ["aarch64-linux-gnu-gcc", "-static", f"-I{root.folder}{top}/include", f"{TOP}/examples/host/filter.c", library]
        words += ["-o", f"{root.folder}/try/filter"]
        compiled = subprocess.run(words, capture_output=True, text=True, check=False)
        root.check("the host program for aarch64 is compiled", compiled.returncode == 0, compiled.stderr)
        ran = subprocess.run(["qemu-aarch64", *FILTER.split()], cwd=f"{root.folder}/try", capture_output=True, text=True, check=False)
        root.check("the host program on aarch64", as_writes(ran.stdout) == as_writes(lines) != [], ran.stderr)
    else:
        print("left out: qemu-aarch64 isn't there")


def try_lintian(root: Root, folder: str) -> None:
    """Looks for lintian's errors."""
    if not shutil.which("lintian"):
        print("left out: lintian isn't there")
        return
    for path in sorted(glob.glob(f"{folder}/*.deb")):
        ran = subprocess.run(["lintian", "--allow-root", path], capture_output=True, text=True, check=False)
        errors = [line for line in ran.stdout.splitlines() if line.startswith("E:")]
        root.check(f"lintian {os.path.basename(path)}", not errors, "\n".join(errors))


def make_root(folder: str) -> None:
    """Makes a bare Debian root with what a host program needs, from the one that is kept if it is there."""
    if not os.path.exists(KEPT):
        os.makedirs(os.path.dirname(KEPT), exist_ok=True)
        words = ["mmdebstrap", "--quiet", "--variant=minbase", f"--include={PACKAGES}", SUITE, f"{KEPT}.new.tar"]
        ran = subprocess.run(words, capture_output=True, text=True, check=False)
        if ran.returncode:
            raise Refused(f"mmdebstrap makes no Debian root: {(ran.stderr.strip().splitlines() or ['it says nothing'])[-1]}")
        os.rename(f"{KEPT}.new.tar", KEPT)
    subprocess.run(["tar", "-xf", KEPT, "-C", folder, "--exclude=./dev/*"], check=True)
    # what scripts write to, and no more
    with open(f"{folder}/dev/null", "w", encoding="utf-8"):
        pass


def make_twice(folder: str) -> bool:
    """Makes the release twice, the second time as another user's shell would, and returns whether both have the same bytes."""
    line = subprocess.run([f"{TOP}/tlut", "--version"], capture_output=True, text=True, check=True).stdout.strip()
    names = release.release(folder, line)
    with tempfile.TemporaryDirectory() as other:
        environment = {**os.environ, "TZ": "Asia/Kathmandu", "LC_ALL": "C", "SOURCE_DATE_EPOCH": "1"}
        words = ["sh", "-c", 'umask 077 && exec "$@"', "sh", sys.executable, f"{TOP}/tools/release.py", other, line]
        ran = subprocess.run(words, env=environment, capture_output=True, text=True, check=False)
        if ran.returncode:
            raise Refused(f"it isn't made a second time: {ran.stderr.strip()}")
        _, differing, missing = filecmp.cmpfiles(folder, other, names, shallow=False)
    for name in [*differing, *missing]:
        print(f"{name} differs")
    return not differing and not missing


def lacking() -> Optional[str]:
    """Why nothing can be tried."""
    if os.geteuid() != 0:
        return "a Debian root needs the rights of root"
    names = [name for name in (*release.NEEDED, "mmdebstrap") if not shutil.which(name)]
    return f"{names[0]} isn't there" if names else None


def try_all(root: Root, given: Optional[str], room: str) -> int:
    """Tries the release that is given, or makes it first. Returns the exit status."""
    folder = given or f"{room}/release"
    try:
        if not given:
            root.check("a release made twice has the same bytes", make_twice(folder))
    except Refused as why:
        print(f"FAILED: no release: {why}")
        return 1
    try_lintian(root, folder)
    shutil.copytree(folder, f"{root.folder}/release")
    try_packages(root, tree.version())
    try_archive(root, tree.version())
    return shared.summary(root.passed, root.failed)


def main() -> int:
    parser = shared.words(__doc__)
    parser.add_argument("folder", metavar="FOLDER", nargs="?", type=shared.path_of, help="a release that is there")
    given = parser.parse_args().folder
    with tempfile.TemporaryDirectory(prefix="tlut-") as room:
        root = Root(f"{room}/root")
        os.mkdir(root.folder)
        try:
            why = lacking()
            if why:
                raise Refused(why)
            proved.facts()
            make_root(root.folder)
        except Refused as why_not:
            print(f"left out: {why_not}")
            return 0
        return try_all(root, given, room)


if __name__ == "__main__":
    sys.exit(main())
