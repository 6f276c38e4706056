"""The programs of the suite of peers, which is no part of this repository. It lies beside the checkout in shared/bench, or
in the folder that PEERS names. They are built outside of it; its README says which packages of Debian that needs."""
import os
import pathlib
import subprocess
import sys

TOP = pathlib.Path(__file__).resolve().parent.parent


def suite():
    """The suite's folder; None, which is told, where there is none."""
    folder = pathlib.Path(os.environ.get("PEERS", TOP.parent / "shared" / "bench"))
    if (folder / "Makefile").exists():
        return folder
    print(f"no suite of peers in {folder}: our own program alone is measured")
    return None


def programs(room):
    """The folder with its programs, which are built there; None where there is no suite."""
    folder = suite()
    if folder is None:
        return None
    out = room / "peers"
    out.mkdir()
    made = subprocess.run(["make", "-s", "-C", folder, f"OUT={out}"], capture_output=True, text=True)
    if made.returncode != 0:
        sys.exit(made.stdout + made.stderr)
    # Shared memory stands for persistent memory: cache lines are written back, and no file is synced.
    os.environ["PMEM_IS_PMEM_FORCE"] = "1"
    return out
