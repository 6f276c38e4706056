#!/usr/bin/env python3
"""Builds the programs that measure what heap_tool cannot. A text timed_NAME.txt takes the place of heap_tool's main in a
scratch clone, of what is committed; a folder timed_NAME takes that of the whole crate, each FILE.txt as FILE. rt proves it
there and builds it. What rt has checked in this checkout, it need not check again.

They are kept in bench/out/built, and built again where the text or the code of a crate has changed. So they can be there
before a machine is quiet. With JOBS in the environment rt has so many jobs.

usage: scratch.py [TEXT..]      builds these, or all (make comes first)
"""
import hashlib
import os
import pathlib
import re
import shutil
import subprocess
import sys
import tempfile

HERE = pathlib.Path(__file__).resolve().parent
TOP = HERE.parent
KEPT = HERE / "out" / "built"
# The crates that each text names.
CRATES = {
    "timed_caches.txt": "thread_cache_tests thread_cache seat_costs heap_rule seat_state core_model dictionary heap_recover"
    " heap_seat line_memory region_header size_table super_block heap_model",
    "timed_one_worker.txt": "dictionary_tests trace_text tool_ports region_header super_block heap_model",
    "timed_pairs.txt": "block_heap region_header super_block size_table heap_model",
    "timed_parallel.txt": "file_ports tool_ports dictionary par_recover heap_recover filter_trace region_header super_block",
    "timed_recovery.txt": "file_ports tool_ports dictionary heap_recover filter_trace region_header super_block",
    "timed_requests.txt": "dictionary_tests block_heap region_header heap_model",
    "timed_workloads": "thread_cache seat_model seat_costs heap_rule heap_table seat_state core_model dictionary heap_recover"
    " heap_seat line_memory region_header super_block heap_model crossbeam_queue atomic_table",
}


def proofs_of(text):
    """What is written of its proofs: TEXT.F.Answers.txt is of its function F."""
    return sorted(HERE.glob(f"{pathlib.Path(text).stem}.*.*.txt"))


def files_of(text):
    """The text and its proofs, or the files of the folder."""
    path = HERE / text
    return sorted(path.rglob("*.txt")) if path.is_dir() else [path, *proofs_of(text)]


def below(text):
    """The crates of this repository that the program has code of."""
    rows = (line.split("#")[0].partition(":") for line in (TOP / "crates.txt").read_text().splitlines())
    names = {name.strip(): lower.split() for name, _, lower in rows if name.strip()}
    found, left = set(), CRATES[text].split()
    while left:
        crate = left.pop()
        if crate in names and crate not in found:
            found.add(crate)
            left += names[crate]
    return sorted(found)


def kept(text):
    """Where the program is kept, by a checksum of the text, of the code of the crates and of which toolchain there is."""
    said = ["git", "-C", TOP, "rev-parse", *(f"HEAD:crates/{crate}/src" for crate in below(text))], ["rt", "version"]
    told = "".join(subprocess.run(words, check=True, capture_output=True, text=True).stdout for words in said)
    whole = b"\0".join([told.encode(), *(path.read_bytes() for path in files_of(text))])
    return KEPT / f"{pathlib.Path(text).stem}-{hashlib.sha256(whole).hexdigest()[:12]}"


def put_folder(crate, folder):
    """Puts the files of a folder into a crate's folder."""
    for file in folder.rglob("*.txt"):
        to = crate / file.relative_to(folder).with_suffix("")
        to.parent.mkdir(parents=True, exist_ok=True)
        shutil.copy(file, to)


def put_text(crate, text):
    """Puts the text into a crate's folder, and what is written of its proofs."""
    if (HERE / text).is_dir():
        put_folder(crate, HERE / text)
        return
    (crate / "src").mkdir(parents=True)
    shutil.copy(HERE / text, crate / "src" / "main.rt")
    for proof in proofs_of(text):
        _, function, part, _ = proof.name.split(".")
        (crate / "proofs" / function).mkdir(parents=True, exist_ok=True)
        shutil.copy(proof, crate / "proofs" / function / f"{part}.antt")


def prove_and_build(room, text):
    """The program of the text alone: the other files of heap_tool are left out. rt runs it too, with no words: it ends then."""
    clone = room / "clone"
    subprocess.run(["git", "clone", "-q", TOP, clone], check=True)
    for out in TOP.glob("crates/*/out"):
        shutil.copytree(out, clone / out.relative_to(TOP))
    crate = clone / "crates" / "heap_tool"
    shutil.rmtree(crate)
    put_text(crate, text)
    lines = (clone / "crates.txt").read_text()
    (clone / "crates.txt").write_text(re.sub(r"^heap_tool: .*$", f"heap_tool: {CRATES[text]}", lines, flags=re.M))
    jobs = ["--jobs", os.environ["JOBS"]] if "JOBS" in os.environ else []
    made = subprocess.run(["rt", "run", *jobs], cwd=crate, stdin=subprocess.DEVNULL, capture_output=True, text=True)
    program = crate / "out" / "heap_tool"
    if not program.exists():
        sys.exit(made.stdout + made.stderr)
    return program


def build(text):
    """The program of the text."""
    path = kept(text)
    if not path.exists():
        KEPT.mkdir(parents=True, exist_ok=True)
        with tempfile.TemporaryDirectory() as folder:
            shutil.copy(prove_and_build(pathlib.Path(folder), text), f"{path}.new")
        os.replace(f"{path}.new", path)
    return path


if __name__ == "__main__":
    for text in sys.argv[1:] or CRATES:
        print(build(text))
