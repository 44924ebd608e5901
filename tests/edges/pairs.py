"""Source, key file and database in every pair, where the two are one file by equal names, links and hard links, and where one has the
name of a draft of the other."""
import os, sys
from folder import FAMILY, TOP, differences, state

sys.path.insert(0, os.path.join(TOP, "tests", "hostile"))
import files
from ciphers import opening

# How the second name of a pair comes from the first: of one file, or of a file of its own.
ONE_FILE = {"the same name": "{0}", "a name with a dot": "./{0}", "a link": "link", "a hard link": "second"}
TWO_FILES = {"the name of its draft": ".{0}.0123456789abcdef.keepass", "a link of its draft's name": ".{0}.fedcba9876543210.keepass", "its name and .part": "{0}.part"}
WRITTEN, NO_KEY = "w.kdbx", b"another file, of any bytes\n"
# The words, the files by their roles, and for each pair of roles the status where they are one file. At 0 the file that is written changes
# where a call does not find that it has all of it.
CALLS = {
    "edit": (["edit", "-q", "-u", "me", "--no-password", "-k", "K", "W", "Bank"], {("W", "K"): (3, False)}),
    "merge": (["merge", "-q", "--no-password", "-s", "-k", "K", "W", "S"], {("W", "S"): (0, False), ("W", "K"): (3, False), ("K", "S"): (4, False)}),
    "import": (["import", "-q", "--set-key-file", "K", "S", "W"], {("S", "W"): (2, False), ("W", "S"): (7, False), ("W", "K"): (7, False), ("S", "K"): (0, True)}),
}


class Pair:
    """A call in which two of the files have names that have to do with each other."""

    def __init__(self, rows, command, roles, relation):
        self.rows, self.command, self.roles, self.relation = rows, command, roles, relation
        self.words, pairs = CALLS[command]
        self.is_one = relation in ONE_FILE
        self.status, self.changes = pairs[roles] if self.is_one else (0, True)
        if command == "import" and roles[1] == "W" and relation.startswith("a link of"):
            # A link to nothing.
            self.status, self.changes = 7, False
        self.names = {"W": WRITTEN, "S": "s.xml" if command == "import" else "s.kdbx", "K": "k.key"}

    def bytes_of(self, role):
        """What a file of a role has; the database of an import is not there."""
        key = opening.sha256(opening.key_file_key("K", NO_KEY))
        if role == "K":
            return NO_KEY
        if self.command == "import":
            with open(FAMILY, "rb") as file:
                return file.read() if role == "S" else None
        return files.sealed(opening.VERSION_4_1, key=key, secrets=("hidden", "old", role))

    def put(self):
        """The files of the call, and its words."""
        first, second = self.roles
        for role, name in self.names.items():
            if role != second and self.bytes_of(role) is not None:
                self.rows.put(name, self.bytes_of(role))
        name = (ONE_FILE if self.is_one else TWO_FILES)[self.relation].format(self.names[first])
        path, of = self.rows.path(name), self.rows.path(self.names[first])
        if self.is_one:
            if name == "link":
                os.symlink(self.names[first], path)
            elif name == "second":
                if not os.path.exists(of):
                    return None
                os.link(of, path)
        elif self.relation.startswith("a link"):
            if self.bytes_of(second) is not None:
                self.rows.put("elsewhere", self.bytes_of(second))
            os.symlink("elsewhere", path)
        elif self.bytes_of(second) is not None:
            self.rows.put(name, self.bytes_of(second))
        self.names[second] = name
        return [self.names.get(word, word) for word in self.words]

    def row(self):
        self.rows.anew()
        words = self.put()
        if words is None:
            return
        if (self.command, self.roles, self.is_one) == ("merge", ("W", "S"), True):
            # Written once by the program, it is as the program writes it.
            self.rows.call(["edit", "-q", "-u", "me", "--no-password", "-k", "k.key", WRITTEN, "Bank"])
            if self.relation == "a hard link":
                os.unlink(self.rows.path("second"))
                os.link(self.rows.path(WRITTEN), self.rows.path("second"))
        before = state(self.rows.folder)
        got = self.rows.call(words)
        found = differences(before, state(self.rows.folder))
        right = got[0] == self.status and bool(got[2]) == (got[0] != 0) and found == ([self.names["W"]] if self.changes else [])
        self.rows.judged(f"{self.command}, {self.roles[1]} by {self.relation} of {self.roles[0]}", right, got, "changed:", found)


def tried(rows):
    for command, (_, pairs) in CALLS.items():
        for roles in pairs:
            for relation in (*ONE_FILE, *TWO_FILES):
                Pair(rows, command, roles, relation).row()
