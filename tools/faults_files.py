"""Calls of bin/heap_tool over real files, outputs and inputs that the system refuses or cuts off, and
the rules by which tools/faults judges what comes of that."""

import contextlib
import os
import resource
import shutil
import signal
import subprocess
import tempfile
from dataclasses import dataclass

from faults_ports import Broken, must
from faults_rows import LINES, TRACE, images, in_version_1

NOBODY = 65534
WAIT = 120
# How often it is tried to be there while an image is read.
TRIES = 5
WRITE_RULE = "a write that failed gives status 5, and a refusal keeps its own"


@dataclass(frozen=True)
class Said:
    """What came of a call: its status, its text, the image, and the other names in its folder."""

    status: int
    text: bytes
    image: bytes
    others: tuple


class Files:
    """The program, and a folder in which each call has a new one."""

    def __init__(self, program, folder):
        self.folder = tempfile.mkdtemp(prefix="files-", dir=folder)
        self.program = shutil.copy(program, self.folder)
        for open_to_all in (folder, self.folder):
            os.chmod(open_to_all, 0o755)
        self.calls, self.left_out, self.larges = 0, [], {}
        self.images = self.made_images()

    def made_images(self):
        place = self.new_place()
        left = []
        self.run(place, "format h 4")
        for words in ("run h --workers 1", "run h --workers 1 --stop 60"):
            self.run(place, words, TRACE)
            left.append(read(os.path.join(place, "h")))
        return images(*left)

    def large(self, version):
        """An empty image that takes a while to read."""
        if version not in self.larges:
            place = self.new_place()
            data = self.run(place, "format h 256").image
            self.larges = {1: in_version_1(data), 2: data}
        return self.larges[version]

    def new_place(self, image=None):
        """A new folder, with the image h if one is given."""
        self.calls += 1
        place = os.path.join(self.folder, str(self.calls))
        os.mkdir(place)
        if image is not None:
            with open(os.path.join(place, "h"), "wb") as file:
                file.write(image)
        return place

    def run(self, place, words, given=b"", **how):
        """The call in that folder, with its input from a file, and what it left there."""
        with contextlib.ExitStack() as opened:
            if "stdin" not in how:
                how["stdin"] = opened.enter_context(tempfile.TemporaryFile())
                how["stdin"].write(given)
                how["stdin"].seek(0)
            how.setdefault("stdout", subprocess.PIPE)
            done = subprocess.run([self.program, *words.split()], cwd=place, stderr=subprocess.DEVNULL,
                                  check=False, timeout=WAIT, **how)
        others = tuple(sorted(name for name in os.listdir(place) if name != "h"))
        return Said(done.returncode, done.stdout or b"", read(os.path.join(place, "h")), others)

    def plain(self, row):
        return self.run(self.new_place(self.image(row)), row.words, row.input)

    def image(self, row):
        return self.images[row.file()] if row.image else None

    def is_alike(self, row, one, other):
        """Whether two images are the same; those of several workers, whether they are shown as such."""
        if one == other or row.workers < 2 or None in (one, other):
            return one == other
        return self.shown(one) == self.shown(other)

    def shown(self, image):
        return self.run(self.new_place(image), "show h").text

    def fail(self, row):
        """What failed, and how these calls ended, for each kind of failure that the row may meet."""
        plain = self.plain(row)
        must(plain.status == row.status and not plain.others, f"{row.words} ends with {row.status}: {plain}")
        kinds = [(True, OUTPUTS), (row.gets and not row.status, UNREADABLE),
                 (row.reads and not row.status, INPUTS), (row.puts, PUTS)]
        for failures in [failures for applies, failures in kinds if applies]:
            for told, failure in failures.items():
                try:
                    ends = failure(self, row, plain)
                except Broken as rule:
                    raise Broken(f"{rule}\n  {row.words}, image {row.file()}, {told}") from None
                if ends:
                    yield told, [name_of(end) for end in ends]


def name_of(status):
    return f"status {status}" if status >= 0 else signal.Signals(-status).name


def read(path):
    """The bytes of a file, or None where there is none."""
    try:
        with open(path, "rb") as file:
            return file.read()
    except (FileNotFoundError, IsADirectoryError, NotADirectoryError):
        return None
    except OSError:
        return b""


# --- outputs

def must_have_put(files, row, plain, said):
    must(files.is_alike(row, said.image, plain.image), "the image is put before the text is printed")
    must(not said.others, "no other file is left")


def full_device(files, row, plain):
    with open("/dev/full", "wb") as full:
        said = files.run(files.new_place(files.image(row)), row.words, row.input, stdout=full)
    must(said.status == (row.status or 5), WRITE_RULE)
    must_have_put(files, row, plain, said)
    return [said.status]


def closed_output(files, row, plain):
    said = files.run(files.new_place(files.image(row)), row.words, row.input, stdout=subprocess.DEVNULL,
                     preexec_fn=lambda: os.close(1))
    must(said.status == (row.status or 5), WRITE_RULE)
    must_have_put(files, row, plain, said)
    return [said.status]


def closed_pipe(files, row, plain):
    """Nobody reads the pipe. The signal that the system sends then ends the process, or is ignored."""
    ends = []
    for restored in (True, False):
        reading, writing = os.pipe()
        os.close(reading)
        with os.fdopen(writing, "wb") as out:
            said = files.run(files.new_place(files.image(row)), row.words, row.input, stdout=out,
                             restore_signals=restored)
        ended = (row.status or 5, -signal.SIGPIPE) if restored else (row.status or 5,)
        must(said.status in ended, WRITE_RULE)
        must_have_put(files, row, plain, said)
        ends.append(said.status)
    return ends


def limited_output(files, row, plain):
    """The file of the output may not be longer than this. No image is put, so none is limited."""
    if row.puts:
        return []
    ends = []
    for most in sorted({0, 1, len(plain.text) // 2, len(plain.text) - 1}):
        with tempfile.TemporaryFile() as out:
            said = files.run(files.new_place(files.image(row)), row.words, row.input, stdout=out,
                             restore_signals=False, preexec_fn=lambda: limit_size(most))
            out.seek(0)
            must(out.read() == plain.text[:most], "what was printed is a first part of the text")
        must(said.status == (row.status or 5), WRITE_RULE)
        must_have_put(files, row, plain, said)
        ends.append(said.status)
    return ends


def limit_size(most):
    resource.setrlimit(resource.RLIMIT_FSIZE, (most, most))


# --- images that can't be read

def must_be_unread(said, image, status=4):
    must(said.status == status, f"the status is {status}: {said.status}")
    must(status != 4 or said.text == (LINES[4] + "\n").encode(), "the line of status 4 is printed")
    must(said.image == image, "the store holds what it held")
    must(not said.others, "nothing is put")


def unreadable_file(files, row, plain):
    if os.getuid():
        files.left_out.append("a file that may not be read: root alone can try it, as another user")
        return []
    place = files.new_place(files.image(row))
    os.chmod(os.path.join(place, "h"), 0)
    said = files.run(place, row.words, row.input, user=NOBODY)
    must_be_unread(said, files.image(row))
    return [said.status]


def folder_as_image(files, row, plain):
    place = files.new_place()
    os.mkdir(os.path.join(place, "h"))
    said = files.run(place, row.words, row.input)
    must_be_unread(said, None)
    must(os.path.isdir(os.path.join(place, "h")), "the folder stays")
    return [said.status]


def link_to_itself(files, row, plain):
    place = files.new_place()
    os.symlink("h", os.path.join(place, "h"))
    said = files.run(place, row.words, row.input)
    must_be_unread(said, b"")
    must(os.path.islink(os.path.join(place, "h")), "the link stays")
    return [said.status]


def odd_names(files, row, plain):
    """A name that is too long, and one below a file, are no missing names."""
    ends = []
    for name in ("n" * 300, "h/h"):
        place = files.new_place(files.image(row))
        words = [name if word == "h" else word for word in row.words.split()]
        said = files.run(place, " ".join(words), row.input)
        must_be_unread(said, files.image(row))
        ends.append(said.status)
    return ends


def short_file(files, row, plain):
    """A file of the system that is said to be longer than what it gives."""
    path = "/sys/kernel/mm/transparent_hugepage/enabled"
    if not os.path.exists(path) or len(read(path)) >= os.path.getsize(path):
        files.left_out.append("a file that gives less than it is said to have: there is none here")
        return []
    place = files.new_place()
    os.symlink(path, os.path.join(place, "h"))
    said = files.run(place, row.words, row.input)
    must(said.status == 7 and said.text == b"bad header short\n", f"what a file gives counts: {said.status}")
    must(os.path.islink(os.path.join(place, "h")) and not said.others, "nothing is put")
    return [said.status]


def shrinking_image(files, row, plain):
    """The image is cut off in the middle of its reading, while the process is held."""
    for _ in range(TRIES):
        place = files.new_place(files.large(row.version))
        path = os.path.join(place, "h")
        run = subprocess.Popen([files.program, *row.words.split()], cwd=place, stdin=subprocess.DEVNULL,
                               stdout=subprocess.PIPE, stderr=subprocess.DEVNULL)
        most = cut_off(run, path)
        text = run.communicate(timeout=WAIT)[0]
        if most:
            must((run.returncode, text) == (7, b"bad header length\n"),
                 f"an image that is cut off is malformed: {run.returncode}")
            must(os.path.getsize(path) == most and os.listdir(place) == ["h"], "nothing is put")
            return [run.returncode]
    files.left_out.append(f"an image that shrinks, of {row.words}: it was read too fast")
    return []


def cut_off(run, path):
    """Cuts the file off behind what the process has read of it; how long it is then, or 0 where the
    process wasn't at it."""
    size = os.path.getsize(path)
    while run.poll() is None:
        if not position(run.pid, path):
            continue
        run.send_signal(signal.SIGSTOP)
        os.waitpid(run.pid, os.WUNTRACED)
        at = position(run.pid, path)
        if at and at < size:
            os.truncate(path, at)
        run.send_signal(signal.SIGCONT)
        return at if at and at < size else 0
    return 0


def position(process, path):
    """How far the process has read the file, or 0 where it hasn't opened it."""
    try:
        for number in os.listdir(f"/proc/{process}/fd"):
            if os.readlink(f"/proc/{process}/fd/{number}") == path:
                with open(f"/proc/{process}/fdinfo/{number}", encoding="ascii") as info:
                    return int(info.readline().split()[1])
    except OSError:
        pass
    return 0


# --- inputs

def closed_input(files, row, plain):
    return bad_input(files, row, subprocess.DEVNULL, lambda: os.close(0))


def folder_as_input(files, row, plain):
    folder = os.open(files.folder, os.O_RDONLY)
    try:
        return bad_input(files, row, folder)
    finally:
        os.close(folder)


def input_for_writing(files, row, plain):
    with tempfile.TemporaryDirectory() as place, open(os.path.join(place, "trace"), "wb") as given:
        return bad_input(files, row, given)


def bad_input(files, row, given, before=None):
    said = files.run(files.new_place(files.image(row)), row.words, stdin=given, preexec_fn=before)
    must_be_unread(said, files.image(row))
    return [said.status]


# --- images that can't be put

def must_be_old(said, image, status=5):
    must(said.status == status, f"a put that failed gives status {status}: {said.status}")
    must(status != 5 or said.text == (LINES[5] + "\n").encode(),
         "nothing of the result is printed, but the line")
    must(said.image == image, "the image is the old one")


def limited_image(files, row, plain):
    """No file may be longer than this. The system's signal ends the process, or is ignored."""
    image, ends = files.image(row), []
    for most in (0, 1, 4096, len(plain.image) // 2, len(plain.image) - 1):
        for restored in (True, False):
            said = files.run(files.new_place(image), row.words, row.input, restore_signals=restored,
                             preexec_fn=lambda: limit_size(most))
            if restored and said.status == -signal.SIGXFSZ:
                must(said.image == image and not said.text, "a run that is killed leaves the old image")
            else:
                must_be_old(said, image)
                must(not said.others, "a file that was not written is removed")
            ends.append(said.status)
    return ends


def small_device(files, row, plain):
    """A device that has room for the old image, and not for the new one beside it."""
    place = files.new_place()
    size = (len(files.image(row) or b"") + len(plain.image) // 2) // 4096 * 4096
    mount = ["mount", "-t", "tmpfs", "-o", f"size={size}", "tmpfs", place]
    if subprocess.run(mount, stderr=subprocess.DEVNULL, check=False).returncode:
        files.left_out.append("a full device for the image: no tmpfs can be mounted here")
        return []
    try:
        if row.image:
            with open(os.path.join(place, "h"), "wb") as file:
                file.write(files.image(row))
        said = files.run(place, row.words, row.input)
        must_be_old(said, files.image(row))
        must(not said.others, "a file that was not written is removed")
    finally:
        subprocess.run(["umount", place], check=True)
    return [said.status]


def folder_not_writable(files, row, plain):
    if os.getuid():
        files.left_out.append("a folder that may not be written: root alone can try it, as another user")
        return []
    said = files.run(files.new_place(files.image(row)), row.words, row.input, user=NOBODY)
    must_be_old(said, files.image(row))
    must(not said.others, "no other file is left")
    return [said.status]


def no_free_name(files, row, plain):
    place = files.new_place(files.image(row))
    for number in range(1000):
        open(os.path.join(place, f"h.new{number}"), "wb").close()
    said = files.run(place, row.words, row.input)
    must_be_old(said, files.image(row))
    must(len(said.others) == 1000, "the files of others stay")
    return [said.status]


def folder_in_its_place(files, row, plain):
    """Of a command that gets no image: the folder can't be replaced."""
    if row.gets:
        return []
    place = files.new_place()
    os.mkdir(os.path.join(place, "h"))
    said = files.run(place, row.words, row.input)
    must_be_old(said, None)
    must(os.path.isdir(os.path.join(place, "h")), "the folder stays")
    must(not said.others, "no other file is left")
    return [said.status]


OUTPUTS = {"output: full device": full_device, "output: closed": closed_output,
           "output: closed pipe": closed_pipe, "output: limited size": limited_output}
UNREADABLE = {"image: unreadable": unreadable_file, "image: folder": folder_as_image,
              "image: link to itself": link_to_itself, "image: odd name": odd_names,
              "image: shorter than said": short_file, "image: shrinks": shrinking_image}
INPUTS = {"input: closed": closed_input, "input: folder": folder_as_input,
          "input: for writing": input_for_writing}
PUTS = {"put: limited size": limited_image, "put: full device": small_device,
        "put: folder not writable": folder_not_writable, "put: no free name": no_free_name,
        "put: folder in its place": folder_in_its_place}
