"""What is installed of a built program, and a Debian package of it."""
import gzip
import os
import re
import shutil
import subprocess
import tempfile
from pathlib import Path

import completions
import manual
from helps import PROGRAM, all_helps, said

TOP = Path(__file__).resolve().parent.parent
DOCUMENTS = ["README.md", "CHANGELOG.md", "docs/FAULTS.md", "docs/FORMATS.md", "docs/MIGRATING.md", "docs/DECISIONS.md"]
LINK = re.compile(r"\[([^\[\]]*)\]\(([^()\s]+)\)")
EXAMPLES = ["dir.conf", "people.ldif", "teams.ldif", "changes.ldif"]
VERSION = re.compile(rf"{PROGRAM} ([\d.]+)(.*)\n")
# A package, which has no file but these. The C library is the one that the kit links to.
CONTROL = """\
Package: {program}
Version: {number}{proved}
Architecture: amd64
Maintainer: {program} <root@localhost>
Depends: libc6
Section: net
Priority: optional
Description: {about}
 {program} adds entries to an LDAP directory, changes them, searches them and
 prints them, in the files of a folder (LDIF, RFC 2849).
 .
 {version}
"""


def version(program):
    """The number of a program, and what else it says of itself."""
    return VERSION.fullmatch(said(program, "--version")).groups()


def document(name):
    """A document whose links lead to those that are installed beside it; of another link its text."""
    beside = {Path(other).name for other in DOCUMENTS}

    def link(found):
        path, mark, part = found[2].partition("#")
        if not path or "://" in path:
            return found[0]
        return f"[{found[1]}]({Path(path).name}{mark}{part})" if Path(path).name in beside else found[1]

    return LINK.sub(link, (TOP / name).read_text()).encode()


def files(program, prefix):
    """What is installed below a prefix: the text or the file of each name, of which only the program is to be run."""
    whole, helps = all_helps(program)
    number, _ = version(program)
    found = {f"bin/{PROGRAM}": Path(program)}
    for name, text in manual.pages(whole, helps, number, prefix).items():
        found[f"share/man/man1/{name}.gz"] = gzip.compress(text.encode(), mtime=0)
    found[f"share/bash-completion/completions/{PROGRAM}"] = completions.bash(whole, helps).encode()
    found[f"share/zsh/site-functions/_{PROGRAM}"] = completions.zsh(whole, helps).encode()
    found |= {f"share/doc/{PROGRAM}/{Path(name).name}": document(name) for name in DOCUMENTS}
    found |= {f"share/doc/{PROGRAM}/example/{name}": TOP / "example" / name for name in EXAMPLES}
    return found


def put(where, content, mode):
    """Writes a file, in the place of what has its name: a program that runs goes on as it was."""
    where.parent.mkdir(parents=True, exist_ok=True)
    draft = where.with_name(f".{where.name}.{os.getpid()}")
    try:
        draft.write_bytes(content.read_bytes() if isinstance(content, Path) else content)
        draft.chmod(mode)
        os.replace(draft, where)
    finally:
        draft.unlink(missing_ok=True)


def install(program, prefix, root=""):
    """Installs a program below a prefix, as it will be; in a folder `root` in which that is, where it has a name. Gives the files."""
    done = []
    for name, content in files(program, prefix).items():
        where = Path(f"{root}{prefix}") / name
        put(where, content, 0o755 if name.startswith("bin/") else 0o644)
        done.append(where)
    return done


def package(program, to):
    """Makes a Debian package of a program. Gives its file, in the folder `to`."""
    if not shutil.which("dpkg-deb"):
        raise FileNotFoundError("dpkg-deb isn't there")
    number, of_build = version(program)
    proved = "" if ", proved," in of_build else "~unproved"
    with tempfile.TemporaryDirectory() as work:
        root = Path(work) / "root"
        install(program, "/usr", root)
        for folder, _, _ in os.walk(root):
            os.chmod(folder, 0o755)
        (root / "DEBIAN").mkdir(mode=0o755)
        about = all_helps(program)[0].about
        control = CONTROL.format(program=PROGRAM, number=number, proved=proved, about=about, version=f"{PROGRAM} {number}{of_build}")
        (root / "DEBIAN/control").write_text(control)
        to.mkdir(parents=True, exist_ok=True)
        file = to / f"{PROGRAM}_{number}{proved}_amd64.deb"
        subprocess.run(["dpkg-deb", "--build", "--root-owner-group", root, file], check=True, stdout=subprocess.DEVNULL)
    return file
