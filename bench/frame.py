"""What the benches share: what tests/frame.py has of programs and tools; and archives and programs in C, callgrind's counts, databases, and tables in
Markdown, in the form that tools/keep-figures keeps and tools/check-figures reads."""
import importlib.util
import os
import re
import resource
import subprocess
import sys
import tempfile
from pathlib import Path

TOP = Path(__file__).resolve().parent.parent
OUT = TOP / "bench" / "out"

# The frame of the tests has this module's name. What of theirs a bench imports, as homes, finds this one, and these names in it.
SPEC = importlib.util.spec_from_file_location("tests_frame", TOP / "tests" / "frame.py")
tests_frame = importlib.util.module_from_spec(SPEC)
SPEC.loader.exec_module(tests_frame)
NAME, Stop, Missing = tests_frame.NAME, tests_frame.Stop, tests_frame.Missing
needs, wants, program = tests_frame.needs, tests_frame.wants, tests_frame.program
sys.path.append(str(TOP / "tests" / "gsettings.d"))


def begin(*mains, **tools):
    """Calls each `main` with a folder of its own, if these tools are there, each given with its package. It exits with 1 after a Stop, with 77 if
    anything is missing."""
    wants(**tools)
    try:
        for main in mains:
            with tempfile.TemporaryDirectory() as folder:
                main(Path(folder))
    except (Stop, Missing) as why:
        print(f"{NAME}: {why}", file=sys.stderr)
        sys.exit(77 if isinstance(why, Missing) else 1)


# ---- what is measured

def ours(*words):
    """A command of the program's."""
    return [str(program()), *words]


def output(*words):
    """What a command prints."""
    return subprocess.run(words, stdout=subprocess.PIPE, check=True, text=True).stdout


def archive():
    """What a program in C links for the proved calls of bench/calls, which are proved first: their archive, and the kit's memory by malloc()."""
    subprocess.run([TOP / "capi" / "archive", "bench/calls"], check=True)
    return [TOP / "bench" / "calls" / "out" / "libbench_calls.a", Path(output("rt", "doc").strip()).parent / "c" / "liblibc_c.a"]


def library():
    """The same for libdconfdb, and where its header is."""
    if subprocess.run([TOP / "capi" / "build"], env=os.environ | {"OUT": str(OUT / "capi")}, check=False).returncode:
        raise Stop("capi/build made no library")
    return [f"-I{TOP / 'capi' / 'libdconfdb'}", OUT / "capi" / "libdconfdb.a"]


def glib(package="gio-2.0"):
    """The flags for GLib."""
    if subprocess.run(["pkg-config", package], check=False).returncode:
        raise Missing(f"there is no {package} (Debian's package libglib2.0-dev)")
    return output("pkg-config", "--cflags", "--libs", package).split()


def compiled(name, *words):
    """The program of bench/NAME.c, with what it links."""
    OUT.mkdir(exist_ok=True)
    warned = ["-std=gnu11", "-O2", "-g", "-Wall", "-Wextra", "-Wshadow", "-Werror"]
    subprocess.run(["gcc", *warned, TOP / "bench" / f"{name}.c", *words, "-o", OUT / name], check=True)
    return str(OUT / name)


# ---- how it is measured

def callgrind(file="/dev/null", toggles=False):
    """What stands before a command to count its instructions, all of them, or those that it asks to be counted; the profile goes into a file."""
    return ["valgrind", "--tool=callgrind", *["--collect-atstart=no"] * toggles, f"--callgrind-out-file={file}"]


def collected(stderr):
    """What callgrind says that it counted."""
    return int(re.search(r"Collected : (\d+)", stderr if isinstance(stderr, str) else stderr.decode(errors="replace"))[1])


def instructions(words, file="/dev/null", toggles=False, **how):
    """The instructions of a command."""
    run = subprocess.run([*callgrind(file, toggles), *words], capture_output=True, **{"check": True} | how)
    return collected(run.stderr)


def print_profile(count):
    """Prints what the instructions go into, by function; `count` counts them into the file that it is given."""
    with tempfile.NamedTemporaryFile() as file:
        count(file.name)
        print(output("callgrind_annotate", "--show-percs=no", file.name))


def processor_seconds():
    """What all processes that were run from here have taken of a processor: of their own, and of the system's for them."""
    used = resource.getrusage(resource.RUSAGE_CHILDREN)
    return used.ru_utime, used.ru_stime


# ---- databases

def write_keys(folder, text, locks=""):
    """A folder of a keyfile and of locks, as `dconf compile` takes it."""
    folder.mkdir(exist_ok=True)
    (folder / "keys").write_text(text, encoding="utf-8")
    if locks:
        (folder / "locks").mkdir(exist_ok=True)
        (folder / "locks" / "locks").write_text(locks, encoding="utf-8")


def compile_keys(file, folder, by_dconf=False):
    """Compiles a database of such a folder."""
    locks = folder / "locks" / "locks"
    words = ["dconf", "compile", file, folder] if by_dconf else ours("compile", file, *(["--locks", locks] if locks.exists() else []), folder / "keys")
    subprocess.run(words, check=True)


# ---- tables

def row(*cells):
    print("| " + " | ".join(cells) + " |", flush=True)


def head(*cells):
    row(*cells)
    print("|" + "---|" * len(cells), flush=True)
