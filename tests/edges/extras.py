"""What a file has beside its owner, group and mode, which the script `keepass` gives to the file that takes its place: an access
control list and attributes of users. The rows read and write both by system calls of their own."""
import errno, fcntl, os, pty, shutil, signal, struct, subprocess, tempfile, time
from folder import TOP, Rows, state

ACCESS, DEFAULT = "system.posix_acl_access", "system.posix_acl_default"
TOOLS = ("getfacl", "setfacl", "getfattr", "setfattr")
EDIT = ["edit", "--plain", "-q", "-u", "me", "w.xml", "Bank"]
NO_LIST, NO_ATTRIBUTES = "its access control list was not kept", "its extended attributes were not kept"
FAMILY = os.path.join(TOP, "examples", "family.kdbx")


def list_of(owner, user, group, mask, other, who=65534):
    """The bytes of an access control list in which one user is named."""
    rows = ((1, owner, 2**32 - 1), (2, user, who), (4, group, 2**32 - 1), (16, mask, 2**32 - 1), (32, other, 2**32 - 1))
    return struct.pack("<I", 2) + b"".join(struct.pack("<HHI", *row) for row in rows)


# The group has fewer rights than the mode shows, which is the mask.
LIST = list_of(6, 4, 0, 6, 0)
ATTRIBUTES = {"user.note": b"of two\nlines", "user.bytes": bytes(range(256)), "user.empty": b""}


class Extras:
    def __init__(self, rows, script):
        self.rows, self.script = rows, script

    def give(self, name, list_=LIST, attributes=ATTRIBUTES):
        """A file in the folder that has a list, if one is given, and attributes."""
        if not os.path.lexists(self.rows.path(name)):
            self.rows.copy(name)
        if list_:
            os.setxattr(self.rows.path(name), ACCESS, list_)
        for key, value in attributes.items():
            os.setxattr(self.rows.path(name), key, value)

    def of(self, name):
        """What a file has."""
        path = self.rows.path(name)
        return {key: os.getxattr(path, key) for key in os.listxattr(path) if key in (ACCESS, DEFAULT) or key.startswith("user.")}

    def anew(self, *names):
        self.rows.anew()
        for name in names:
            self.give(name)

    def called(self, words, line=b"", **more):
        """A call of the script: its status, what it printed and reported."""
        given = {} if "stdin" in more else {"input": line}
        taken = {"stdout": subprocess.PIPE, "stderr": subprocess.PIPE, **more}
        ended = subprocess.run([self.script, *words], cwd=self.rows.folder, **given, **taken)
        return ended.returncode, *((one or b"").decode(errors="replace") for one in (ended.stdout, ended.stderr))

    def row(self, name, words, written="w.xml", line=b"", status=0, said=(), kept=None, **more):
        """A call that replaces this file, or none; the file has afterwards what it had, or what is said, and no other is touched."""
        before, had = state(self.rows.folder), self.of(written) if written else None
        got = self.called(words, line, **more)
        after = state(self.rows.folder)
        changed = sorted(one for one in before.keys() | after.keys() if before.get(one) != after.get(one))
        real = os.path.relpath(os.path.realpath(self.rows.path(written)), self.rows.folder) if written else None
        right = got[0] == status and got[2] == "".join(f"keepass: {one}\n" for one in said) and changed == ([real] if real else [])
        has = self.of(written) if written else None
        self.rows.judged(name, right and has == (had if kept is None else kept), got, "changed:", changed, had, has)


def path_without(folder, tools):
    """A path on which every program is but these."""
    os.mkdir(folder)
    for place in os.environ["PATH"].split(":"):
        for name in os.listdir(place) if os.path.isdir(place) else ():
            if name not in tools and not os.path.lexists(os.path.join(folder, name)):
                os.symlink(os.path.join(place, name), os.path.join(folder, name))
    return {**os.environ, "PATH": folder}


def path_with(folder, does):
    """A path on which these tools are stand-ins, a line of a shell each."""
    os.mkdir(folder)
    for name, line in does.items():
        with open(os.path.join(folder, name), "w") as file:
            file.write(f"#!/bin/sh\n{line}\n")
        os.chmod(os.path.join(folder, name), 0o755)
    return {**os.environ, "PATH": f"{folder}:{os.environ['PATH']}"}


def commands(extras):
    """Each command that changes a file, by itself, sealed, over a link and under odd names."""
    for words in (["add", "w.xml", "New"], ["edit", "-u", "me", "w.xml", "Bank"], ["edit", "--restore", "0", "w.xml", "Bank"], ["mv", "w.xml", "Bank", "Work"],
                  ["rm", "w.xml", "Bank"], ["mkdir", "w.xml", "New"], ["rmdir", "w.xml", "School"], ["merge", "w.xml", "v.xml"]):
        extras.anew("w.xml")
        extras.rows.copy("v.xml")
        extras.rows.call(["add", "--plain", "-q", "v.xml", "Merged"])
        extras.row(f"{words[0]}: list and attributes stay", [words[0], "--plain", "-q", *words[1:]])
    for lines, status, said in ((b"mkdir New\nrm Bank\n", 0, []), (b"mkdir New\nrm Nope\n", 0, ["w.xml: not found"]), (b"mkdir New\nadd -p X\n", 12, ["input: line 3 missing"])):
        extras.anew("w.xml")
        extras.row(f"a session of {lines!r}: list and attributes are there at its end", ["open", "--plain", "-q", "w.xml"], line=lines, status=status, said=said)
    for what, more in (("a list", {"attributes": {}}), ("attributes", {"list_": None})):
        extras.rows.anew()
        extras.give("w.xml", **more)
        extras.row(f"{what} alone", EDIT)
    extras.rows.anew()
    shutil.copyfile(FAMILY, extras.rows.path("w.kdbx"))
    extras.give("w.kdbx")
    extras.row("a database under a password", ["edit", "-q", "-u", "me", "w.kdbx", "Bank"], "w.kdbx", b"family\n")
    extras.row("two lines of input", ["edit", "-q", "-p", "w.kdbx", "Bank"], "w.kdbx", b"family\nnew\n")
    extras.row("another key", ["db-edit", "-q", "-p", "w.kdbx"], "w.kdbx", b"family\nnew\n")
    for name in ("two words.xml", "-x.xml", "é.xml", "two\nlines.xml", "end\n", "back\\slash\\012.xml", "'\"$x.xml", "#.xml"):
        extras.anew(name)
        extras.row(f"the name {name!r}", ["edit", "--plain", "-q", "-u", "me", "--", name, "Bank"], name)
        os.symlink(name, extras.rows.path("link"))
        extras.row(f"a link to {name!r}", ["edit", "--plain", "-q", "-u", "you", "link", "Bank"], "link")


def nothing_to_do(extras, work):
    """A call that only reads, and one that is refused; and how many tools are called where a file has nothing."""
    extras.anew("w.xml")
    extras.row("a refusal", ["add", "--plain", "w.xml", "Bank"], None, status=2, said=["w.xml: already there"])
    extras.row("words that are no command", ["edit", "--plain", "w.xml", "Bank"], None, status=1, said=["words: wrong words"])
    extras.row("a trial of a merge", ["merge", "--plain", "-q", "-d", "w.xml", "w.xml"], None)
    extras.row("a merge that finds everything there", ["merge", "--plain", "-q", "w.xml", "w.xml"], None)
    note = os.path.join(work, "note")
    environment = path_with(os.path.join(work, "noting"), {tool: f'echo {tool} >>"{note}"; PATH=${{PATH#*:}}; exec {tool} "$@"' for tool in TOOLS})
    for words, most in ((["ls", "w.xml"], 0), (["show", "w.xml", "Bank"], 0), (["history", "w.xml", "Bank"], 0), (["search", "w.xml", "bank"], 0),
                        (["export", "w.xml"], 0), (["db-info", "w.xml"], 0), (["import", "w.xml", "n.xml"], 0), (["edit", "-u", "me", "v.xml", "Bank"], 1), (["open", "v.xml"], 1), (["merge", "-d", "v.xml", "u.xml"], 1)):
        extras.anew("w.xml")
        extras.rows.copy("v.xml")
        extras.rows.copy("u.xml")
        open(note, "w").close()
        got = extras.called([words[0], "--plain", "-q", *words[1:]], env=environment)
        with open(note) as file:
            count = len(file.readlines())
        extras.rows.judged(f"{words[0]} calls {most} of the tools", got[0] == 0 and count == most, got, count)


def folder_with_a_list(extras):
    """A file in a folder whose list new files get: it has none afterwards, as before."""
    extras.rows.anew("w.xml")
    os.chmod(extras.rows.path("w.xml"), 0o640)
    os.setxattr(extras.rows.folder, DEFAULT, list_of(7, 6, 5, 7, 5))
    extras.row("a file without a list in a folder with one", EDIT)
    extras.give("w.xml")
    extras.row("a file with a list in such a folder", EDIT)


def missing(extras, work, has_tools):
    """What cannot be kept is said."""
    environment = path_without(os.path.join(work, "without"), TOOLS)
    extras.anew("w.xml")
    extras.row("no tool is there", EDIT, said=[f"w.xml: {NO_LIST}"], kept={}, env=environment)
    extras.rows.anew()
    extras.give("w.xml", list_=None)
    extras.row("no tool is there, and no list either", EDIT, kept={}, env=environment)
    if not has_tools:
        return
    for number, (tools, lost) in enumerate(((("setfacl",), [NO_LIST]), (("setfattr",), [NO_ATTRIBUTES]), (("setfacl", "setfattr"), [NO_LIST, NO_ATTRIBUTES]), (("getfattr",), []), (("getfacl",), [NO_LIST]))):
        extras.anew("w.xml")
        kept = {key: value for key, value in extras.of("w.xml").items() if not (key == ACCESS and NO_LIST in lost)}
        if NO_ATTRIBUTES in lost or tools == ("getfattr",):
            kept = {key: value for key, value in kept.items() if key == ACCESS}
        extras.row(f"without {tools}", EDIT, said=[f"w.xml: {one}" for one in lost], kept=kept, env=path_without(os.path.join(work, str(number)), tools))
    failing = path_with(os.path.join(work, "failing"), {"setfacl": "exit 1", "setfattr": "exit 1"})
    extras.anew("w.xml")
    extras.row("tools that fail", EDIT, said=[f"w.xml: {NO_LIST}", f"w.xml: {NO_ATTRIBUTES}"], kept={}, env=failing)


def streams(extras):
    """Closed and full streams, and a terminal."""
    with open("/dev/full", "wb") as full:
        extras.anew("w.xml")
        extras.row("a report that cannot be written", [one for one in EDIT if one != "-q"], status=10, said=["output: could not be written"], stdout=full)
    extras.anew("w.xml")
    prompt = ["edit", "--plain", "-p", "w.xml", "Bank"]
    got = extras.called(["-c", 'exec "$0" "$@" <&-', extras.script, *prompt], stdin=subprocess.DEVNULL, executable="/bin/sh")
    extras.rows.judged("a closed input", got == (11, "", "keepass: input: fault\n"), got)
    got = extras.called(["-c", 'exec "$0" "$@" >&- 2>&-', extras.script, *EDIT], stdin=subprocess.DEVNULL, executable="/bin/sh")
    extras.rows.judged("closed outputs", got[0] == 0 and extras.of("w.xml") == {ACCESS: LIST, **ATTRIBUTES}, got)
    for streams_, name in ((("stdin", "stdout", "stderr"), "a terminal"), (("stderr",), "a terminal for refusals")):
        extras.anew("w.xml")
        ours, theirs = pty.openpty()
        before = os.stat(extras.rows.path("w.xml")).st_ino
        ended = subprocess.run([extras.script, *EDIT], cwd=extras.rows.folder, env={**os.environ, "TERM": "dumb"},
                               **{**dict.fromkeys(("stdin", "stdout", "stderr"), subprocess.DEVNULL), **dict.fromkeys(streams_, theirs)})
        os.set_blocking(ours, False)
        try:
            said = os.read(ours, 9999)
        except BlockingIOError:
            said = b""
        os.close(ours), os.close(theirs)
        right = ended.returncode == 0 and said == b"" and os.stat(extras.rows.path("w.xml")).st_ino != before
        extras.rows.judged(name, right and extras.of("w.xml") == {ACCESS: LIST, **ATTRIBUTES}, ended, said)


def signals(extras):
    """The script becomes the program where there is nothing to give back; else a signal to the script ends both."""
    for has, send in ((False, signal.SIGTERM), (True, signal.SIGTERM), (True, signal.SIGINT), (True, signal.SIGHUP)):
        extras.rows.anew("w.xml")
        if has:
            extras.give("w.xml")
        before = state(extras.rows.folder)
        with open(extras.rows.path("w.xml")) as held:
            fcntl.flock(held, fcntl.LOCK_EX)
            # The tests may run beside a shell that ignores signals of the keyboard.
            call = subprocess.Popen([extras.script, *EDIT], cwd=extras.rows.folder, stdin=subprocess.DEVNULL, stdout=subprocess.PIPE, stderr=subprocess.PIPE,
                                    preexec_fn=lambda: signal.signal(send, signal.SIG_DFL))
            program = program_of(call.pid)
            call.send_signal(send)
            call.communicate()
            left = program is not None and is_there(program)
        is_script = program == call.pid
        extras.rows.judged(f"signal {send} to a call, {'something' if has else 'nothing'} to give back",
                           call.returncode == -send and is_script != has and not left and state(extras.rows.folder) == before, call.returncode, program, call.pid, left)


def program_of(pid):
    """The process of a call that is the program, the script itself or one that it started, once there is one; None where the call has
    ended."""
    while is_there(pid):
        for one in (pid, *below(pid)):
            try:
                if os.path.basename(os.readlink(f"/proc/{one}/exe")).startswith("keepass_cli"):
                    return one
            except OSError:
                pass
        time.sleep(0.01)


def status_of(pid):
    """What the system says of a process after its name: its state, the process that started it, and more; nothing of one that is gone."""
    try:
        with open(f"/proc/{pid}/stat") as file:
            return file.read().rsplit(") ", 1)[1].split()
    except OSError:
        return []


def below(pid):
    """The processes that a process started."""
    return [int(one) for one in os.listdir("/proc") if one.isdigit() and status_of(one)[1:2] == [str(pid)]]


def is_there(pid):
    """Whether a process still runs: one that has ended may still wait to be asked for its status."""
    return status_of(pid)[:1] not in ([], ["Z"], ["X"])


def supported(folder):
    """Whether files of a folder can have lists and attributes of users."""
    with tempfile.NamedTemporaryFile(dir=folder) as file:
        try:
            os.setxattr(file.name, ACCESS, LIST)
            os.setxattr(file.name, "user.note", b"a note")
        except OSError as error:
            if error.errno not in (errno.EOPNOTSUPP, errno.EPERM):
                raise
            return False
    return True


def kept(rows, script):
    """All of it, or what of it can be tried here."""
    if script is None:
        print("skipped: lists and attributes that the script keeps; no script is named")
        return
    if not supported(rows.work):
        print("skipped: lists and attributes that the script keeps; the file system has none")
        return
    extras, has_tools = Extras(rows, os.path.realpath(script)), all(map(shutil.which, TOOLS))
    missing(extras, rows.work, has_tools)
    if not has_tools:
        print("skipped: lists and attributes that the script keeps; getfacl, setfacl, getfattr or setfattr is not installed")
        return
    commands(extras)
    nothing_to_do(extras, rows.work)
    folder_with_a_list(extras)
    streams(extras)
    signals(extras)
