"""What tools/edits reads: must-fail edits, the functions that they change, and what a check says of these."""
import dataclasses
import os
import re

# The verdicts. A limit is one of the prover's own: it gave none.
REFUSED, LIMIT = FINE = "refused", "refused by a limit"
PROVED, NAMES, BAD, UNKNOWN = "STILL PROVED", "REFUSED BY A NAME ALONE", "BAD EDIT", "NO VERDICT"
# A note or an error with its place.
PLACE = r"(?:\./)?(?P<file>(?:src|specs|proofs)/\S+?):(?P<line>\d+):\d+"
PLACED = re.compile(rf"(?P<kind>note: )?{PLACE}: (?P<said>.*)")
# A proof that names what is gone, and what cites such a proof.
GONE = re.compile(r"has no field|is not in scope|has no `|was not admitted")
# A goal that isn't only unproved.
FALSE = "allow values at which this goal is false"
# An edited text that can't be read.
UNREAD = re.compile(r"is not in scope|has no field|is no name|operand is missing|expected the end|cannot continue")
OWN_LIMIT = re.compile(r"antt ran out of|outgrew the memory limit|stopped at the step limit")
# A name that a check doesn't know, or that several functions have.
NO_NAME = re.compile(r"(?m)^rattle: error: .*(?:has no function|several functions are named) `([^`]*)`")
FN = re.compile(r"( *)(?:pub(?:\([a-z ]+\))? )?(?:(?:const|unsafe) )*fn (\w+)")
# The trait, if there is one, and the type that a block of functions is for, which may stand in another file.
IMPL = re.compile(r"impl(?:<.*?>)? (?:(?:\w+::)*(\w+)(?:<.*>)? for )?(?:\w+::)*(\w+)")


@dataclasses.dataclass(frozen=True)
class Function:
    """A function of a source file: the lines from its signature to its end. A type's stands below the type in
    paths and in folders of proofs, in whichever file; in paths the name of a trait is put behind the type's."""

    file: str
    name: str
    first: int
    last: int
    type: str
    trait: str

    def module(self):
        """Its module, as a path of folders; empty for the crate's root."""
        inside = self.file[len("src/") : -len(".rt")]
        return re.sub(r"(^|/)(lib|main|mod)$", "", inside)

    def path(self):
        """What a check calls it, or the end of that which fits it alone."""
        above = f"{self.type}{self.trait}" if self.type else self.module().replace("/", "::")
        return f"{above}::{self.name}" if above else self.name

    def is_beside(self, other):
        """Whether what a check says of one may be meant of the other: of one file and name."""
        return (self.file, self.name) == (other.file, other.name)

    def has(self, file, line):
        return file == self.file and self.first <= line <= self.last

    def has_proof(self, file):
        """Whether it is one of the function's own proof files: proofs/MODULE/../NAME/.."""
        if self.type and f"/{self.type}/{self.name}/" in file:
            return file.startswith("proofs/")
        return file.startswith(f"proofs/{self.module()}".rstrip("/") + "/") and f"/{self.name}/" in file

    def is_at(self, path):
        """Whether a path that a check prints, without the crate's name, is this function's."""
        module = self.module().replace("/", "::")
        if self.type and f"::{path}".endswith(f"::{self.path()}"):
            return True
        return not self.trait and path.split("::")[-1] == self.name and path.startswith(f"{module}::" if module else "")


def end_of(lines, first, indent):
    """Returns the number of the last line of a function that begins at this one, by rt fmt's layout."""
    for number in range(first, len(lines) + 1):
        line = lines[number - 1]
        other = FN.match(line)
        if number > first and other and len(other[1]) <= len(indent):
            return number - 1
        outside = line[len(indent) :] if line.startswith(indent) else line
        if outside and outside[0] != " " and outside.endswith((";", "}")):
            return number
    return len(lines)


def function_at(file, lines, number):
    """Returns the innermost function that has the line of that number, or None."""
    found = None
    for first, line in enumerate(lines[:number], 1):
        begins = FN.match(line)
        last = begins and end_of(lines, first, begins[1])
        if begins and number <= last:
            # a check may place what it says at an attribute
            while first > 1 and lines[first - 2].strip() and not lines[first - 2].endswith(("{", "}", ";")):
                first -= 1
            blocks = filter(None, map(IMPL.match, lines[first - 1 :: -1])) if begins[1] else ()
            trait, of = next(((it[1] or "", it[2]) for it in blocks), ("", ""))
            found = Function(file, begins[2], first, last, of, trait)
    return found


class Edit:
    """An edit, read from its file."""

    def __init__(self, file):
        self.name = os.path.basename(file)[: -len(".edit")]
        self.pairs, path, old = [], "", None
        with open(file, encoding="utf-8") as it:
            for line in it.read().split("\n"):
                if line.startswith("file: "):
                    path = line[len("file: ") :].strip()
                elif line.startswith("old: "):
                    old = line[len("old: ") :]
                elif line.startswith("new:"):
                    new = line[len("new:") :]
                    self.pairs.append((path, old, new[1:] if new.startswith(" ") else new))
                    old = None

    def apply(self, texts):
        """Puts the edit into the texts, which stand by their paths. Returns the functions that it changes,
        with None for any other place, and why it can't be put in."""
        made, places = dict(texts), []
        if not self.pairs or not all(path and old for path, old, _ in self.pairs):
            return [], "it has no pair of lines 'old:' and 'new:' below a line 'file:'"
        for path, old, new in self.pairs:
            if path not in made:
                return [], f"there is no file {path}"
            if made[path].count(old) != 1:
                return [], f"an 'old:' text stands in {path} {made[path].count(old)} times, and not once"
            line = made[path][: made[path].index(old)].count("\n") + 1
            is_code = path.startswith("src/") and path.endswith(".rt")
            places.append(function_at(path, made[path].split("\n"), line) if is_code else None)
            made[path] = made[path].replace(old, new)
        if made == texts:
            return [], "it changes nothing"
        texts.update(made)
        return places, None


class Said:
    """What a check of a crate said, and how it ended."""

    def __init__(self, crate, status, text):
        self.status, self.text = status, text
        self.placed = [it for it in map(PLACED.match, text.split("\n")) if it]
        unanswered = rf"(?m)^fn {crate}::(\S+): no proof: expected answers in \S+; `search` did not prove .*"
        self.unanswered = {it[1]: it[0] for it in re.finditer(unanswered, text)}

    def unknown_name(self):
        """Returns the name that the check didn't know as that of one function, if that is why it ended."""
        found = self.status == 2 and NO_NAME.search(self.text)
        return found[1] if found else None

    def answers_gone(self, function):
        """Whether the function's proof files name what isn't there."""
        return any(function.has_proof(it["file"]) and GONE.search(it["said"]) for it in self.placed)

    def refusals(self, functions):
        """Returns the lines that speak of a goal, or of an answer to a goal, that isn't proved, and none that
        says that a proof names what is gone. Where a proof file of one of these functions does, other goals
        may be open for that alone, so there only those count that are said to be false."""
        lost = [it for it in functions if self.answers_gone(it)]
        told = []
        for it in self.placed:
            if it["kind"]:
                is_lost = any(of.has(it["file"], int(it["line"])) for of in lost) and FALSE not in it["said"]
                is_told = "it is not proved that" in it["said"] and not is_lost
            else:
                # what the compiler says has a code, as error[E..], and refuses nothing
                is_told = it["said"].startswith("error:") and not GONE.search(it["said"])
            if is_told:
                told.append(it)
        return told

    def open_in(self, function, paths):
        """Returns the line that says that this function, which is at one of these paths, isn't proved, or an
        empty text."""
        for it in self.refusals([function]):
            if function.has(it["file"], int(it["line"])) or function.has_proof(it["file"]):
                return it[0]
        if len(paths) == 1 and not self.answers_gone(function):
            ending = f"::{paths[0]}"
            return next((line for at, line in self.unanswered.items() if f"::{at}".endswith(ending)), "")
        return ""

    def rejected(self, function):
        """Returns what the compiler says against this function's text, or an empty text."""
        errors = [it for it in self.placed if it["said"].startswith("error[")]
        return next((it[0] for it in errors if function.has(it["file"], int(it["line"]))), "")

    def unread(self, paths):
        """Returns the line that says that an edited text of these paths can't be read, or an empty text."""
        for it in self.placed:
            error = re.fullmatch(r"error: (?P<of>`[^`]*`: )?(?P<what>.*)", it["said"])
            is_read = it["file"] in paths or it["file"].startswith(("src/", "specs/"))
            if error and is_read and (not error["of"] or UNREAD.search(re.sub(r"`[^`]*`", "", error["what"]))):
                return it[0]
        return ""

    def alone(self, paths, functions):
        """Returns the verdict on the one edit that was put in, which changed these files and functions, and the
        line that says so."""
        if self.status == 0:
            return PROVED, ""
        if self.status == 1 and self.unread(paths):
            return BAD, self.unread(paths)
        if self.status == 1 and "logic=not-proved" in self.text:
            told = [it[0] for it in self.refusals(functions)]
            if not any(map(self.answers_gone, functions)):
                told += self.unanswered.values()
            gone = next((it[0] for it in self.placed if GONE.search(it["said"])), "")
            return (REFUSED, told[0]) if told else (NAMES, gone) if gone else (UNKNOWN, "no goal is named")
        if self.status == 3 and OWN_LIMIT.search(self.text):
            return LIMIT, OWN_LIMIT.search(self.text)[0]
        error = re.search(r"(?m)^.*\berror\[[\w-]+\].*$", self.text)
        if self.status == 1 and error:
            return BAD, error[0]
        return UNKNOWN, f"the check ended with status {self.status}"
