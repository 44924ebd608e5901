"""Short texts for documents, and the documents that they mean.

    group ID NAME OPTION... ( NODE... )     a group, whose ID is a byte that is repeated sixteen times; the first one is the root
    entry ID TITLE OPTION... VERSION...     an entry; its first VERSION is the current one, the others are its history
    chain NUMBER ( NODE... )                as many groups within one another, named d
    gone ID SECONDS                         after the root: a tombstone

A VERSION is SECONDS or SECONDS=NOTES, the time of its change; without one an entry was changed at 0. An OPTION is placed=SECONDS, from=ID
(the previous parent), seen=SECONDS, used=NUMBER, and of a group at=SECONDS, the time of its change. An underscore in a name means a
space. A text that begins with `<` is a document as it is, in which @0 to @9 mean the base64 of an id."""
import base64, datetime

YEAR_1 = datetime.datetime(1, 1, 1)


def identity(number):
    return base64.b64encode(bytes([int(number)] * 16)).decode()


def time(seconds):
    return (YEAR_1 + datetime.timedelta(seconds=int(seconds))).isoformat() + "Z"


def element(name, text):
    return f"<{name}>{text}</{name}>"


def times(changed, options):
    parts = [element("LastModificationTime", time(changed))]
    for option, name in ("placed", "LocationChanged"), ("seen", "LastAccessTime"):
        if option in options:
            parts.append(element(name, time(options[option])))
    if "used" in options:
        parts.append(element("UsageCount", options["used"]))
    return element("Times", "".join(parts))


def head(number, options):
    previous = element("PreviousParentGroup", identity(options["from"])) if "from" in options else ""
    return element("UUID", identity(number)) + previous


def field(key, text):
    return element("String", element("Key", key) + element("Value", text))


class Outline:
    def __init__(self, text):
        self.words, self.chained = text.split(), 1000

    def take(self):
        return self.words.pop(0)

    def options(self):
        """The options of a node, and its versions."""
        found, versions = {}, []
        while self.words and (self.words[0][0].isdigit() or "=" in self.words[0]):
            key, sign, value = self.take().partition("=")
            if key.isdigit():
                versions.append((key, value if sign else None))
            else:
                found[key] = value
        return found, versions

    def nodes(self):
        """What is in parentheses: entries before groups."""
        assert self.take() == "(", self.words
        entries, groups = [], []
        while self.words[0] != ")":
            kind, text = self.node()
            (entries if kind == "entry" else groups).append(text)
        self.take()
        return "".join(entries + groups)

    def node(self):
        kind = self.take()
        return kind, {"group": self.group, "entry": self.entry, "chain": self.chain}[kind]()

    def group(self):
        number, name = self.take(), self.take().replace("_", " ")
        options, _ = self.options()
        changed = options.pop("at", 0)
        return element("Group", head(number, options) + element("Name", name) + times(changed, options) + self.nodes())

    def entry(self):
        number, title = self.take(), self.take().replace("_", " ")
        options, versions = self.options()

        def version(changed, notes, more):
            text = field("Title", title) + ("" if notes is None else field("Notes", notes))
            return element("Entry", head(number, options) + times(changed, options) + text + more)

        (changed, notes), *history = versions or [(0, None)]
        return version(changed, notes, element("History", "".join(version(*old, "") for old in history)))

    def chain(self):
        count, fronts = int(self.take()), []
        for _ in range(count):
            self.chained += 1
            number = base64.b64encode(self.chained.to_bytes(16, "big")).decode()
            fronts.append("<Group>" + element("UUID", number) + element("Name", "d"))
        return "".join(fronts) + self.nodes() + "</Group>" * count

    def document(self):
        _, root = self.node()
        tombs = []
        while self.words:
            assert self.take() == "gone", self.words
            tombs.append(element("DeletedObject", element("UUID", identity(self.take())) + element("DeletionTime", time(self.take()))))
        return element("KeePassFile", element("Root", root + element("DeletedObjects", "".join(tombs))))


def text_of(outline):
    """The text of a document."""
    if not outline.startswith("<"):
        return Outline(outline).document().encode()
    for number in range(10):
        outline = outline.replace(f"@{number}", identity(number))
    return outline.encode()
