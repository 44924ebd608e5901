"""Every command on a file in which something may be wrong, and what a call may say and leave. Used by `damaged` and `shapes`."""
import os, re, select, signal, tempfile

FILE, OTHER, NEW, KEY = "FILE", "OTHER", "NEW", "KEY"
# The seconds after which a call counts as one without an end.
SECONDS = 1200
# Where there is a disk in memory, calls are made on it, since none of these tests is about disks.
DISK = "/dev/shm" if os.access("/dev/shm", os.W_OK) else None
PAGE = os.path.join(os.path.dirname(os.path.realpath(__file__)), "..", "..", "docs", "STATUSES.md")


def texts_of_refusals():
    """The texts that docs/STATUSES.md has for each status, as patterns: N, ID, X, Y and NAME stand for what differs."""
    found, status = {}, None
    with open(PAGE, encoding="utf-8") as page:
        for line in page:
            heading, row = re.match(r"## (\d*)", line), re.match(r"\| `([^`]+)` \|", line)
            status = int(heading[1] or 0) if heading else status
            if row and status:
                text = re.escape(row[1]).replace(r"ID\ \.\.", r"[0-9a-f -]+")
                text = re.sub(r"\b(N|NAME|ID|X|Y)\b", lambda one: {"N": r"\d+", "NAME": ".*"}.get(one[0], "[0-9a-f-]+"), text)
                found.setdefault(status, []).append(text)
    return {status: re.compile("|".join(texts)) for status, texts in found.items()}


TEXTS = texts_of_refusals()


class Call:
    """A command: its words, in which FILE is the file in question, and the file that it may write, if any."""

    def __init__(self, name, *words, writes=None):
        self.name, self.own, self.writes = name, words, writes

    def words(self, access):
        """The words with options on credentials after the command. A merge opens its source by the same ones."""
        same = ("-s",) if self.own[0] == "merge" and access != ("--plain",) else ()
        return [self.own[0], *access, *same, *self.own[1:]]


COMMANDS = [
    Call("ls", "ls", "-Rf", "--ids", FILE),
    Call("show", "show", "-s", "--all", "--show-attachments", FILE, "Bank"),
    Call("show --at", "show", "-s", "--all", "--show-attachments", "--at", "1", FILE, "Bank"),
    Call("history", "history", FILE, "Bank"),
    Call("search", "search", FILE, "password:hidden"),
    Call("export", "export", FILE),
    Call("export -f csv", "export", "-f", "csv", FILE),
    Call("db-info", "db-info", FILE),
    Call("add", "add", "-u", "me", FILE, "Work/New", writes=FILE),
    Call("edit", "edit", "-u", "me", FILE, "Bank", writes=FILE),
    Call("edit --restore", "edit", "--restore", "1", FILE, "Bank", writes=FILE),
    Call("mv", "mv", FILE, "Bank", "Work", writes=FILE),
    Call("rm", "rm", FILE, "Bank", writes=FILE),
    Call("mkdir", "mkdir", FILE, "Work/New", writes=FILE),
    Call("rmdir", "rmdir", FILE, "Work", writes=FILE),
    Call("merge into it", "merge", FILE, OTHER, writes=FILE),
    Call("merge of it", "merge", "--details", OTHER, FILE, writes=OTHER),
    Call("merge -d", "merge", "-d", "--details", FILE, OTHER),
]


def imports(form):
    """An import of the file by itself, and into a database."""
    return [Call(f"import {form}", "import", "--format", form, "--plain", FILE, NEW, writes=NEW),
            Call(f"import {form} -p", "import", "--format", form, "-p", FILE, NEW, writes=NEW)]


class Place:
    """A folder with some files in which calls are made. What a call reads and prints is in files, since pipes would take longer than the
    call itself."""

    def __init__(self, program, parent=None):
        self.program, self.folder, self.seen = os.path.realpath(program), tempfile.mkdtemp(dir=parent or DISK), {}
        self.streams = [tempfile.TemporaryFile(dir=DISK, buffering=0) for _ in range(3)]

    def put(self, files):
        """These files and no others. A number stands for so many bytes of zero. What is there already stays."""
        same = {name for name, data in files.items() if name in self.seen and self.seen[name][-1] == data}
        if same == self.seen.keys() == files.keys():
            return
        for name in os.listdir(self.folder):
            if name not in files:
                os.remove(os.path.join(self.folder, name))
        for name in files.keys() - same:
            with open(os.path.join(self.folder, name), "wb") as file:
                file.truncate(files[name]) if isinstance(files[name], int) else file.write(files[name])
        self.seen = self.state()

    def read(self, name):
        with open(os.path.join(self.folder, name), "rb", 0) as file:
            return file.read()

    def state(self):
        """Every file: number, mode, times, length and bytes."""
        found = {}
        for name in os.listdir(self.folder):
            one = os.lstat(os.path.join(self.folder, name))
            found[name] = one.st_ino, one.st_mode, one.st_mtime_ns, one.st_size, self.read(name) if one.st_size < 2**22 else None
        return found

    def run(self, words, lines):
        """The status of the program, or None where it does not end."""
        for stream, content in zip(self.streams, (lines, b"", b"")):
            stream.seek(0)
            stream.truncate()
            stream.write(content)
            stream.seek(0)
        os.chdir(self.folder)
        actions = [(os.POSIX_SPAWN_DUP2, stream.fileno(), number) for number, stream in enumerate(self.streams)]
        child = os.posix_spawn(self.program, [self.program, *words], os.environ, file_actions=actions)
        ended, waiting = os.pidfd_open(child), select.poll()
        waiting.register(ended, select.POLLIN)
        in_time = waiting.poll(1000 * SECONDS)
        os.close(ended)
        if not in_time:
            os.kill(child, signal.SIGKILL)
        status = os.waitstatus_to_exitcode(os.waitpid(child, 0)[1])
        return status if in_time else None

    def call(self, call, access, lines):
        """A call, and what it did: status, output, line, and the names of the files that are not as they were."""
        before, status = self.seen, self.run(call.words(access), lines)
        self.seen = after = self.state()
        _, out, err = [(stream.seek(0), stream.read())[1] for stream in self.streams]
        changed = sorted(name for name in before.keys() | after.keys() if before.get(name) != after.get(name))
        return status, out, err, changed


def faults(call, found, allowed, due=None):
    """What is wrong with what a call did, if anything: its status must be one of those allowed. A refusal prints nothing, has a line that
    the page of statuses has, and changes no file; else no file is changed but the one that the command writes. `due` is the status and
    the line of the refusal that is due, or None where it is not said which."""
    status, out, err, changed = found
    if status is None:
        return f"it did not end in {SECONDS} seconds"
    if status not in allowed:
        return f"status {status}, {err[:200]!r}"
    if due is not None and (status, err.decode(errors="replace")) != due:
        return f"{(status, err)} instead of {due}"
    if status == 0:
        return f"{changed} were changed" if changed not in ([], [call.writes]) or err else None
    line = re.fullmatch(r"keepass: (?:\w+): (.*)\n", err.decode(errors="replace"), re.DOTALL)
    if line is None or not TEXTS[status].fullmatch(line[1]):
        return f"status {status} with the line {err!r}"
    if out or changed:
        return f"status {status}, and it printed {out[:100]!r} or changed {changed}"
    return None
