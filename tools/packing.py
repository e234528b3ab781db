"""Makes the package of a program: what is in it, its manual page, and the file.

The version of the package is the one that the program prints. The manual page is made of what it prints with --help."""
import gzip
import hashlib
import io
import re
import subprocess
import tarfile

from scripting import TOP, parser

DOCS = ("OPERATING", "FAULTS", "SECURITY", "FAQ", "WIRE", "FORMATS", "PROVED")
PAGES = tuple(f"docs/{it}.md" for it in DOCS)
OF_PYTHON = ("python/locks_client/**/*", "python/backend/*.py", "python/pyproject.toml", "python/README.md")
OF_RUST = ("rust/Cargo.*", "rust/build.rs", "rust/src/**/*", "rust/README.md")
OF_GO = ("go/go.mod", "go/README.md", "go/**/*.go")
UNITS = ("locks@.service", "locks-scrub@.service", "locks-scrub@.timer")
STATUS = """.SH EXIT STATUS
.TP
.B 0
The command did its work; for
.BR ask ,
a node has answered.
.TP
.B 1
A fault, which the last line of standard error names; for
.BR ask ,
no node has answered.
.TP
.B 2
The command line is invalid.
.SH SEE ALSO
.I docs/OPERATING.md
describes how to run a cluster and what each fault means,
.I docs/WIRE.md
describes how a client speaks to it.
"""


def printed(program, *words):
    """What the program prints."""
    piped = {"stdin": subprocess.DEVNULL, "capture_output": True, "text": True}
    return subprocess.run([program, *words], check=True, **piped).stdout


def version(program):
    """The version that the program has, as 0.1.0."""
    return re.match(r"locks ([\w.-]+)", printed(program, "--version"))[1]


def roff(text):
    """A text as the source of a manual page has it."""
    escaped = text.replace("\\", "\\e").replace("-", "\\-").replace("'", "\\(aq")
    return f"\\&{escaped}" if escaped.startswith(".") else escaped


def paragraphs(text):
    """The first paragraph of a help text, and the lines of each paragraph with a title."""
    about, *rest = text.strip().split("\n\n")
    titled = {}
    for it in rest:
        title, _, body = it.partition(":")
        titled[title.strip()] = body.strip("\n").splitlines()
    return about, titled


def rows(lines):
    """The items of a list in a help text, as roff: what is said of each stands below it."""
    for line in lines:
        name, _, help_text = line.strip().partition("  ")
        yield f".TP\n.B {roff(name)}\n{roff(help_text.strip())}"


def command(program, name):
    """The part of the manual page about a subcommand."""
    about, titled = paragraphs(printed(program, name, "--help"))
    yield f".SS {name}\n{roff(about[:1].upper() + about[1:])}.\n.PP\n.B {roff(titled['Usage'][0].strip())}"
    yield from rows(titled.get("Arguments", []))
    yield from rows(it for it in titled["Options"] if "--help" not in it)


def manual(program):
    """The manual page of the program."""
    about, titled = paragraphs(printed(program, "--help"))
    names = [line.split()[0] for line in titled["Commands"]]
    parts = [f'.TH LOCKS 1 "" "locks {version(program)}" "User Commands"', f".SH NAME\nlocks \\- {roff(about)}"]
    parts += [".SH SYNOPSIS", f".B {roff(titled['Usage'][0].strip())}", ".SH OPTIONS", *rows(titled["Options"])]
    parts += [".SH COMMANDS"]
    for name in names:
        parts += [] if name == "help" else command(program, name)
    return "\n".join(parts) + "\n" + STATUS


def contents(program):
    """The files of the package: their bytes by their names."""
    files = {"locks": program.read_bytes(), "locks.1": manual(program).encode()}
    files["README.md"] = (TOP / "tools/PACKAGE.md").read_bytes()
    clients = [it for name in OF_PYTHON + OF_RUST + OF_GO for it in (TOP / "clients").glob(name)]
    for it in [TOP / it for it in (*PAGES, *(f"tools/systemd/{it}" for it in UNITS))] + clients:
        if it.is_file() and it.suffix != ".pyc" and not it.name.endswith("_test.go"):
            files[str(it.relative_to(TOP))] = it.read_bytes()
    sums = "".join(f"{hashlib.sha256(files[name]).hexdigest()}  {name}\n" for name in sorted(files))
    return {**files, "SHA256SUMS": sums.encode()}


def member(name, data):
    """What the archive says of a file: nothing of who made it and when."""
    told = tarfile.TarInfo(name)
    told.size, told.mode = len(data), 0o755 if data.startswith((b"\x7fELF", b"#!")) else 0o644
    return told


def pack(program, folder):
    """Writes the package of the program into the folder: the same bytes for the same files. Its path."""
    title = f"locks-{version(program)}-x86_64"
    path, made = folder / f"{title}.tar.gz", io.BytesIO()
    with gzip.GzipFile("", "wb", fileobj=made, mtime=0) as packed, tarfile.open(fileobj=packed, mode="w") as archive:
        for name, data in sorted(contents(program).items()):
            archive.addfile(member(f"{title}/{name}", data), io.BytesIO(data))
    folder.mkdir(parents=True, exist_ok=True)
    path.write_bytes(made.getvalue())
    return path


if __name__ == "__main__":
    parser(__doc__).parse_args()
