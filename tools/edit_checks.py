"""How tools/edits has copies of a crate checked: over what `rt check` keeps, or over what `rt ci` leaves."""
import contextlib
import importlib.machinery
import importlib.util
import os
import shutil
import signal
import subprocess
import tempfile
import threading

HERE = os.path.dirname(os.path.dirname(os.path.realpath(__file__)))
PARTS = ("src", "specs", "proofs")
# The copies that stand now, and the commands that run.
COPIES, RUNNING = set(), set()
# The memory that a check of a few functions is given, in bytes: most take 1 to 3 GB.
ROOM = 5 << 30


def ran(words, folder):
    """Runs a command and returns its status and what it said."""
    how = {"stdin": subprocess.DEVNULL, "stdout": subprocess.PIPE, "stderr": subprocess.STDOUT}
    with subprocess.Popen(words, cwd=folder, text=True, errors="replace", **how) as it, kept_in(RUNNING, it):
        said = it.communicate()[0]
    return it.returncode, said


@contextlib.contextmanager
def kept_in(these, one):
    these.add(one)
    try:
        yield
    finally:
        these.discard(one)


def cut_off(number, _):
    """Ends the checks, removes the copies and ends."""
    for it in [*RUNNING]:
        it.terminate()
    for top in [*COPIES]:
        shutil.rmtree(top, ignore_errors=True)
    os._exit(128 + number)


@contextlib.contextmanager
def copy_of(crate, texts):
    """Gives a folder in which the crate's files have these texts."""
    with tempfile.TemporaryDirectory(prefix="edits-") as top, kept_in(COPIES, top):
        for path, text in texts.items():
            file = f"{top}/crates/{crate.name}/{path}"
            os.makedirs(os.path.dirname(file), exist_ok=True)
            with open(file, "w", encoding="utf-8") as it:
                it.write(text)
        yield top


def link(one, other):
    try:
        os.link(one, other)
    except OSError:
        shutil.copy2(one, other)
    return other


def copy_kept(crate, to):
    """Copies what checks kept of the crate, if any did. A check replaces a kept proof, and writes into none, so
    these are linked."""
    kept = f"{crate.folder}/out/incremental"
    if os.path.isdir(kept):
        shutil.copytree(kept, to, copy_function=link_proof)


def link_proof(one, other):
    return (link if one.endswith(".oantt") else shutil.copy2)(one, other)


class OverKept:
    """The ground of a checkout: `rt check` over what it kept."""

    lanes = 1

    def __init__(self, options):
        self.options = options

    def call(self, folder, only):
        words = ["rt", "check", *(["--jobs", self.options.jobs] if self.options.jobs else [])]
        return ran(words + [word for it in only for word in ("--only", it)], folder)

    def stands(self, crate):
        """Checks the crate as it stands."""
        return self.call(crate.folder, ())

    def begin(self, crate, top):
        """Copies the crate's libraries, with what was kept of it."""
        with open(f"{top}/crates.txt", "w", encoding="utf-8") as it:
            it.writelines(self.options.lines[name] for name in [*crate.below, crate.name])
        shutil.copy2(f"{HERE}/HANDLES", top)
        for name in crate.below:
            for part in PARTS:
                if os.path.isdir(f"{HERE}/crates/{name}/{part}"):
                    shutil.copytree(f"{HERE}/crates/{name}/{part}", f"{top}/crates/{name}/{part}")
            shutil.copytree(f"{HERE}/crates/{name}/out/rlib", f"{top}/crates/{name}/out/rlib", copy_function=link)
        copy_kept(crate, f"{top}/crates/{crate.name}/out/incremental")

    def check(self, crate, top, only):
        return self.call(f"{top}/crates/{crate.name}", only)


class OverProved:
    """The ground that `rt ci` leaves: its libraries, and no crate's proofs. The prover is called as rt calls it."""

    def __init__(self, options):
        loader = importlib.machinery.SourceFileLoader("rt_of_kit", os.path.realpath(shutil.which("rt")))
        rt = importlib.util.module_from_spec(importlib.util.spec_from_loader("rt_of_kit", loader))
        loader.exec_module(rt)
        self.prover, self.guard = rt.rtlib.RATTLE, rt.rtlib.guarded
        # (its first call sets a signal's handler, which only the main thread may)
        self.guard()
        self.crates = {it.name: it for it in rt.rtlib.crates_below(HERE)}
        self.lanes = max(1, min(rt.processors(), rt.free() // ROOM))
        self.flags = ["--jobs", options.jobs or "1"]
        self.places, self.one_alone = threading.Semaphore(self.lanes), threading.Lock()

    def stands(self, crate):
        """The crate was proved as it stands, if the libraries below it are those of that run."""
        for it in self.crates[crate.name].below():
            # (what rt ci builds has no stamp, and what rt's other commands build has that of their files)
            has_stamp = os.path.exists(f"{os.path.dirname(it.rlib)}/stamp")
            if not os.path.isfile(f"{it.rlib}/format") or has_stamp and not it.is_built():
                why = f"crates/{it.name}/out has no library of rt ci: run .ci/run in a clean clone, or without --proved"
                return 2, why
        return 0, ""

    def begin(self, crate, top):
        """Copies what checks kept of the crate, if any did: then what its functions call isn't proved again."""
        copy_kept(crate, f"{top}/kept")

    def check(self, crate, top, only):
        words = [self.prover, "check", *self.crates[crate.name].words(self.flags, keeps=False)]
        words += ["--incremental", f"{top}/kept"] if os.path.isdir(f"{top}/kept") else []
        words += [word for it in only for word in ("--only", it)]
        words, folder = [*self.guard(), *words], f"{top}/crates/{crate.name}"
        with self.places:
            status, said = ran(words, folder)
        return self.again(words, folder) if status == -signal.SIGKILL else (status, said)

    def again(self, words, folder):
        """Runs a check that was killed, most likely for memory, once more, with nothing beside it."""
        with self.one_alone:
            for _ in range(self.lanes):
                self.places.acquire()
            try:
                return ran(words, folder)
            finally:
                self.places.release(self.lanes)
