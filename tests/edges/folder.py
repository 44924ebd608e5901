"""A folder of a row: the call that is made in it, and every file of it before and after."""
import hashlib, os, shutil, stat, subprocess, sys, tempfile, time

TOP = os.path.dirname(os.path.dirname(os.path.dirname(os.path.abspath(__file__))))
FAMILY = os.path.join(TOP, "examples", "family.xml")
NOBODY = 65534
# The seconds after which something counts as never happening. Nothing is expected to happen within a time.
PATIENCE = 600


def state(folder):
    """Every file below a folder: its kind, number, mode, owner, length, time of its last change, attributes with its access control list,
    and its bytes or what it names."""
    found = {}
    for path, folders, files in os.walk(folder):
        for name in folders + files:
            whole = os.path.join(path, name)
            one = os.lstat(whole)
            content = os.readlink(whole) if stat.S_ISLNK(one.st_mode) else None
            if stat.S_ISREG(one.st_mode):
                with open(whole, "rb") as file:
                    content = hashlib.sha256(file.read()).hexdigest()
            # A folder's own time changes with each draft.
            changed = None if stat.S_ISDIR(one.st_mode) else one.st_mtime_ns
            size = None if stat.S_ISDIR(one.st_mode) else one.st_size
            found[os.path.relpath(whole, folder)] = (stat.S_IFMT(one.st_mode), one.st_ino, stat.S_IMODE(one.st_mode), one.st_uid, one.st_gid, size, changed, extras(whole), content)
    return found


def extras(path):
    """The attributes of a file, among them its access control list, where the file system has such."""
    try:
        return {name: os.getxattr(path, name, follow_symlinks=False) for name in os.listxattr(path, follow_symlinks=False)}
    except OSError:
        return {}


def least(seconds, does):
    """The seconds that something takes: the fewest of as many times as it takes more than these, since a busy machine may make anything take
    long."""
    until, fewest = time.monotonic() + PATIENCE, float("inf")
    while fewest > seconds and time.monotonic() < until:
        begun = time.monotonic()
        does()
        fewest = min(fewest, time.monotonic() - begun)
    return fewest


def differences(before, after):
    """The names of the files that were made, removed, or changed in any way."""
    return sorted(name for name in before.keys() | after.keys() if before.get(name) != after.get(name))


class Rows:
    """What is tried, and what went wrong."""

    def __init__(self, program):
        self.passed, self.failed, self.work = 0, 0, tempfile.mkdtemp()
        os.chmod(self.work, 0o755)
        self.folder = os.path.join(self.work, "folder")
        # Another user, who may not read the folder of the sources, runs the program too.
        self.program = shutil.copy(program, self.work)
        os.chmod(self.program, 0o755)

    def end(self):
        shutil.rmtree(self.work, ignore_errors=True)
        print(f"{self.passed} passed, {self.failed} failed")
        return 1 if self.failed else 0

    def judged(self, name, right, *said):
        if right:
            self.passed += 1
        else:
            self.failed += 1
            print(f"FAILED: {name}:", *(str(one)[:1500] for one in said), flush=True)
        return right

    def anew(self, *names):
        """An empty folder, with copies of the example under these names."""
        shutil.rmtree(self.folder, ignore_errors=True)
        os.mkdir(self.folder)
        for name in names:
            self.copy(name)

    def path(self, name):
        return os.path.join(self.folder, name)

    def later(self):
        """Waits until a file that is changed now is changed at a later time than all that were changed before, as the disk tells the time."""
        times = []
        while len(set(times)) < 2:
            with open(os.path.join(self.work, "time"), "wb") as file:
                file.write(b"x")
            times.append(os.stat(file.name).st_mtime_ns)
            time.sleep(0.001)

    def copy(self, name, source=FAMILY):
        shutil.copyfile(source, self.path(name))

    def put(self, name, content=b"another file\n"):
        with open(self.path(name), "wb") as file:
            file.write(content)

    def words(self, words, as_nobody=False):
        before = ["setpriv", f"--reuid={NOBODY}", f"--regid={NOBODY}", "--clear-groups"] if as_nobody and os.getuid() == 0 else []
        return [*before, self.program, *words]

    def call(self, words, line=b"", as_nobody=False, **files):
        """The status of a call in the folder, and what it printed and reported."""
        ended = subprocess.run(self.words(words, as_nobody), cwd=self.folder, input=line, stdout=subprocess.PIPE, stderr=subprocess.PIPE, **files)
        return ended.returncode, ended.stdout.decode(errors="replace"), ended.stderr.decode(errors="replace")

    def begun(self, words, line=b""):
        """A call in the folder that goes on."""
        call = subprocess.Popen(self.words(words), cwd=self.folder, stdin=subprocess.PIPE, stdout=subprocess.PIPE, stderr=subprocess.PIPE)
        call.stdin.write(line)
        call.stdin.close()
        call.stdin = None
        return call

    def row(self, name, words, changed=(), status=0, said="", line=b"", as_nobody=False):
        """A call after which these files were made or changed and no other, with this status, and this line on standard error."""
        before = state(self.folder)
        got = self.call(words, line, as_nobody)
        found = differences(before, state(self.folder))
        error = f"keepass: {said}\n" if said else ""
        self.judged(name, got[0] == status and got[2] == error and found == sorted(changed), got, "changed:", found)
        return got

    def lists(self, name, title, *words):
        """Whether the listing of a plain export has this title."""
        got = self.call(["ls", "--plain", name, *words])
        return got[0] == 0 and title in got[1].split("\n")

    def drafts(self):
        """The drafts in the folder and below it."""
        return [one for one in state(self.folder) if one.endswith(".keepass")]
