"""What the program says of where it comes from (`--version`): its number, the kit, whether it was proved, and the sum of its sources.

It can't know that by itself. So who builds it writes this into a copy of its crate, and compiles the copy; the sources stay as they are.
"""
import hashlib
import re
import shutil

# The file that says it, in the program's `src`, and the text there: the number, and what is said where nothing is known.
FILE = "origin.rt"
TEXT = re.compile(r'(?<=const VERSION: &str = ")([\d.]+)([^"]*)(?=";)')
PROVED, UNPROVED = "proved", "nothing proved"
# So many digits of the sum are shown.
DIGITS = 16


def sources_of(folder):
    """The files of a crate that its proof reads, by their names."""
    return sorted(file for part in ("src", "specs", "proofs") for file in (folder / part).rglob("*") if file.is_file())


def sum_of(files, top):
    """The sum of these files: the SHA-256 of what `sha256sum` prints of them at the folder `top`."""
    lines = (f"{hashlib.sha256(file.read_bytes()).hexdigest()}  {file.relative_to(top)}\n" for file in files)
    return hashlib.sha256("".join(lines).encode()).hexdigest()


def copied(folder, to, kit, proved, files_sum):
    """Copies a program's crate, which is to say of itself what is known. Gives the folder of the copy; that of the crate, where it says nothing."""
    if not (folder / "src" / FILE).exists():
        return folder
    for part in ("src", "specs", "proofs"):
        if (folder / part).exists():
            shutil.copytree(folder / part, to / part)
    file = to / "src" / FILE
    said, found = TEXT.subn(rf"\1 ({kit}), {proved}, sources {files_sum[:DIGITS]}", file.read_text())
    if found != 1:
        raise ValueError(f"{folder / 'src' / FILE}: no text to write over")
    file.write_text(said)
    return to
