"""Sessions: one process that writes its file again and again, and what comes between two of its lines, or into one of them."""
import fcntl, os, select, stat, subprocess, time
from folder import NOBODY, PATIENCE, differences, least, state

OPEN = ["open", "--plain", "w.xml"]
FAULT = "keepass: w.xml: file fault\n"
EDITED = b"Successfully edited entry Bank.\n"


class Session:
    """A session in the folder, whose lines are given one by one. It has read its file when this is made."""

    def __init__(self, rows, words=OPEN, as_nobody=False):
        self.call = subprocess.Popen(rows.words(words, as_nobody), cwd=rows.folder, stdin=subprocess.PIPE, stdout=subprocess.PIPE, stderr=subprocess.PIPE, bufsize=0)
        self.printed = b""
        self.is_open = self.line("ls", b"Bank\n")

    def line(self, line, wanted=b""):
        """Gives a line, and reports whether it makes the session print this."""
        before = len(self.printed)
        try:
            self.call.stdin.write(line.encode() + b"\n")
        except BrokenPipeError:
            return False
        until = time.monotonic() + PATIENCE
        while wanted not in self.printed[before:] and time.monotonic() < until:
            if select.select([self.call.stdout], [], [], 1)[0]:
                piece = os.read(self.call.stdout.fileno(), 65536)
                if not piece:
                    return False
                self.printed += piece
        return wanted in self.printed[before:]

    def edits(self, name):
        """Gives a line that writes the file, and reports whether it did."""
        return self.line(f"edit -u {name} Bank", EDITED)

    def end(self):
        """The end of the input: the status, and what was reported."""
        try:
            _, said = self.call.communicate(timeout=PATIENCE)
        except subprocess.TimeoutExpired:
            self.call.kill()
            _, said = self.call.communicate()
        return self.call.returncode, said.decode(errors="replace")


def user(rows, name="w.xml"):
    """The user name of the entry that the lines edit, as the file has it."""
    return rows.call(["show", "--plain", "-a", "UserName", name, "Bank"])[1].strip()


def adds_a_name(rows):
    os.link(rows.path("w.xml"), rows.path("second"))


def between_lines(rows, changes):
    """What another program does with the file between two lines stays, and the next line that writes is refused."""
    changes = {**changes, "given a second name": lambda: adds_a_name(rows)}
    for what, change in changes.items():
        for written in (0, 1, 2):
            rows.anew("w.xml")
            session = Session(rows)
            works = session.is_open and all(session.edits(f"me{number}") for number in range(written))
            rows.later()
            change()
            after = state(rows.folder)
            reads = session.line("ls", b"Bank\n")
            session.line("edit -u late Bank")
            got = session.end()
            found = differences(after, state(rows.folder))
            name = f"a session's file that is {what} after {written} lines that wrote it"
            rows.judged(name, works and reads and got == (7, FAULT) and found == [], works, reads, got, found)
        rows.anew("w.xml")
        session = Session(rows)
        change()
        after = state(rows.folder)
        reads = session.line("show -a UserName Mail", b"\n")
        got = session.end()
        rows.judged(f"a session that only reads, whose file is {what}", reads and got == (0, "") and state(rows.folder) == after, reads, got)


def other_calls(rows):
    """Calls do not wait for a session that waits for its lines, and of two sessions the second that writes is refused."""
    for written in (0, 1, 2):
        rows.anew("w.xml")
        session = Session(rows)
        works = session.is_open and all(session.edits(f"me{number}") for number in range(written))
        with open(rows.path("w.xml")) as held:
            try:
                fcntl.flock(held, fcntl.LOCK_EX | fcntl.LOCK_NB)
                free = True
            except BlockingIOError:
                free = False
        rows.judged(f"the lock is free after {written} lines that wrote the file", works and free and rows.drafts() == [], works, free, rows.drafts())
        words = ["edit", "--plain", "-q", "-u", "call", "w.xml", "Bank"]
        rows.row("a call while a session waits", words, ["w.xml"])
        taken = least(5, lambda: rows.call(words))
        rows.judged("it does not wait for the session", taken < 5, taken)
        session.line("edit -u late Bank")
        got = session.end()
        rows.judged("the session that waited is refused, and the call's file stands", got == (7, FAULT) and user(rows) == "call", got, user(rows))
    rows.anew("w.xml")
    one, other = Session(rows), Session(rows)
    works = one.is_open and other.is_open and one.edits("one") and one.edits("again")
    other.line("edit -u other Bank")
    refused = other.end()
    goes_on = one.edits("last")
    got = one.end()
    rows.judged("two sessions", works and refused == (7, FAULT) and goes_on and got == (0, "") and user(rows) == "last", works, refused, goes_on, got, user(rows))
    rows.anew("w.xml")
    session = Session(rows)
    with open(rows.path("w.xml")) as held:
        fcntl.flock(held, fcntl.LOCK_EX)
        session.line("edit -u me Bank")
        time.sleep(1)
        waits = user(rows) != "me"
        fcntl.flock(held, fcntl.LOCK_UN)
        got = session.end()
    rows.judged("a session waits for the lock, and works", waits and got == (0, "") and user(rows) == "me", waits, got, user(rows))
    rows.anew("w.xml")
    before, ends = state(rows.folder), []

    def waits():
        session = Session(rows)
        session.line("edit -u me Bank")
        ends.append(session.end())

    with open(rows.path("w.xml")) as held:
        fcntl.flock(held, fcntl.LOCK_EX)
        taken = least(25, waits)
    rows.judged("a session waits for a lock for ten seconds", set(ends) == {(7, FAULT)} and 9 < taken < 25 and state(rows.folder) == before, ends, taken)


def names_and_drafts(rows):
    """Links are followed when the session begins; drafts that were left are removed by a line that writes, and what was read is not."""
    rows.anew()
    os.mkdir(rows.path("cloud"))
    rows.copy("cloud/db.xml")
    rows.copy("second.xml")
    os.symlink("cloud/db.xml", rows.path("link.xml"))
    session = Session(rows, ["open", "--plain", "link.xml"])
    before = state(rows.folder)
    works = session.is_open and session.edits("one") and session.edits("two")
    found = differences(before, state(rows.folder))
    rows.judged("a session over a link", works and found == ["cloud/db.xml"] and user(rows, "link.xml") == "two", works, found)
    os.unlink(rows.path("link.xml"))
    os.symlink("second.xml", rows.path("link.xml"))
    before = state(rows.folder)
    session.line("edit -u late Bank")
    got = session.end()
    rows.judged("a link that is led elsewhere between two lines", got == (7, "keepass: link.xml: file fault\n") and state(rows.folder) == before, got)
    rows.anew("w.xml")
    draft = ".w.xml.0123456789abcdef.keepass"
    rows.put(draft)
    session = Session(rows)
    kept = rows.drafts() == [draft]
    works = session.edits("one") and rows.drafts() == []
    rows.put(draft)
    works = works and session.edits("two") and rows.drafts() == []
    rows.judged("drafts that were left before lines that write", kept and works and session.end() == (0, ""), kept, works, rows.drafts())
    rows.anew("w.xml")
    os.link(rows.path("w.xml"), rows.path(draft))
    session = Session(rows)
    works = session.edits("one") and rows.drafts() == [] and session.edits("two")
    rows.judged("a second name that an import left", works and session.end() == (0, ""), works, rows.drafts())
    rows.anew("v.xml")
    key = ".k.kdbx.0123456789abcdef.keepass"
    rows.put(key, os.urandom(32))
    rows.row("a database under a key file with the name of a draft", ["import", "-q", "--set-key-file", key, "v.xml", "k.kdbx"], ["k.kdbx"])
    session = Session(rows, ["open", "--no-password", "-k", key, "k.kdbx"])
    before = state(rows.folder)
    works = session.is_open and session.edits("one") and session.edits("two")
    found = differences(before, state(rows.folder))
    rows.judged("a session under that key file leaves it", works and session.end() == (0, "") and found == ["k.kdbx"], works, found)
    rows.anew("w.xml")
    os.chmod(rows.path("w.xml"), 0o444)
    session = Session(rows, as_nobody=True)
    before = state(rows.folder)
    session.line("edit -u me Bank")
    got = session.end()
    rows.judged("a session over a file that may only be read", session.is_open and got == (7, FAULT) and state(rows.folder) == before, got)
    if os.getuid() == 0:
        rows.anew("w.xml")
        os.chown(rows.path("w.xml"), NOBODY, NOBODY)
        os.chmod(rows.path("w.xml"), 0o640)
        session = Session(rows)
        works = session.edits("one") and session.edits("two") and session.end() == (0, "")
        one = os.stat(rows.path("w.xml"))
        rows.judged("owner, group and mode stay over two lines", works and (one.st_uid, one.st_gid, stat.S_IMODE(one.st_mode)) == (NOBODY, NOBODY, 0o640), works, one)


LINES = b"edit -u one Bank\nedit -u two Bank\n"


def renamed(call):
    return call.name == "rename"


def within_a_line(rows, traced, reported, writes, changes):
    """What another program does with the file while a later line writes it is not undone, nor what it does right after an earlier line
    wrote it."""
    for what, change in changes.items():
        for when, steps in (
            ("before the second draft is written", [renamed, writes]),
            ("before the second draft is given its name", [renamed, writes, lambda call: call.name == "fsync"]),
            ("right after the first draft got its name", [renamed, lambda call: call.name == "fsync"]),
        ):
            rows.anew("w.xml")
            call = traced(OPEN, LINES)
            stands = all([call.run_to(step) for step in steps])
            rows.later()
            change()
            after = {name: one for name, one in state(rows.folder).items() if not name.endswith(".keepass")}
            status = call.go_on()
            found = differences(after, state(rows.folder))
            # Rights that are given before the new file is noted are those that the next line keeps.
            kept = what == "given other rights" and when.startswith("right after")
            if kept:
                right = (status, reported(), user(rows)) == (0, "", "two") and stat.S_IMODE(os.stat(rows.path("w.xml")).st_mode) == 0o640
            else:
                right = (status, reported(), found) == (7, FAULT, [])
            rows.judged(f"a session's file that is {what} {when}", stands and right, stands, status, reported(), found)


def order_of_calls(rows, traced):
    """What each line prints as done is on the disk before."""
    rows.anew("w.xml")
    call, seen = traced(OPEN, LINES), []
    while True:
        one = call.next()
        if one is None:
            break
        if one.name in ("write", "fsync", "rename", "link", "unlink"):
            kind = "print" if one.name == "write" and one.arguments[0] <= 2 else one.name
            if not (kind in ("write", "print") and seen and seen[-1] == kind):
                seen.append(kind)
    line = ["write", "fsync", "fsync", "rename", "fsync", "print"]
    rows.judged("the order of the system calls of two lines", seen == line * 2, seen)


def killed_at_each_call(rows, traced):
    """A session that ends at any system call of its second line leaves the file of its first line or of its second, whole, and no draft
    after the next call."""
    number, counts, whole = 0, {"one": 0, "two": 0}, True
    while True:
        number += 1
        rows.anew("w.xml")
        call = traced(OPEN, LINES)
        right = call.run_to(renamed) is not None
        for _ in range(number):
            if call.next() is None:
                break
        ended = call.status is not None
        call.kill()
        found = user(rows)
        if found in counts:
            counts[found] += 1
        done = rows.call(["edit", "--plain", "-q", "-u", "next", "w.xml", "Bank"])
        right = right and found in counts and done[0] == 0 and list(state(rows.folder)) == ["w.xml"]
        if not right:
            whole = rows.judged(f"a session that ends before system call {number} after its first line", False, found, done, sorted(state(rows.folder)))
        if ended:
            break
    rows.judged(f"a session that ends at each of {number} system calls after its first line", whole and all(counts.values()), counts)


def tried(rows, changes):
    """What comes between the lines of a session."""
    between_lines(rows, changes)
    other_calls(rows)
    names_and_drafts(rows)


def traced_calls(rows, traced, reported, writes, changes):
    """What comes between the system calls of its lines."""
    within_a_line(rows, traced, reported, writes, changes)
    order_of_calls(rows, traced)
    killed_at_each_call(rows, traced)
