#!/usr/bin/env python3
"""A second reading of `show` and `search`, to compare the program with.

It is written from the rules that stand in the comments below, with Python's own reader of XML, its
regular expressions and its case folding, and shares nothing with the program.

    finding.py                          tries the worked cases at the end of this file on this reading
    finding.py PROGRAM [COUNT [SEED]]   tries these cases on the program too, and as many calls over
                                        random documents

`Document(text)` reads a plain document. `show` and `search` give what the program is to print:
the status, the text on standard output and the text on standard error.
"""
import base64
import os
import random
import re
import subprocess
import sys
import tempfile
import uuid
import xml.etree.ElementTree as ElementTree

# The fields that every entry has, by the letters that stand for them in references.
NAMED = {"T": "Title", "U": "UserName", "P": "Password", "A": "URL", "N": "Notes"}


class Refused(Exception):
    """An answer in the place of a text: its status, what it is about (None is the file), its text."""

    def __init__(self, status, subject, text):
        super().__init__(text)
        self.answer = status, subject, text


# ---- documents


def is_true(text):
    return text is not None and text.lower() == "true"


def text_in(element, name):
    """The text of the last child of a name; it is empty where there is none."""
    found = element.findall(name)
    return "".join(found[-1].itertext()) if found else ""


class Entry:
    """A version of an entry: its id, its fields by their keys, its tags, its attachments; and, of the current one, the
    older ones, the last of the file first."""

    def __init__(self, element, binaries):
        self.id = uuid.UUID(bytes=base64.b64decode(text_in(element, "UUID").strip()))
        self.older = [Entry(version, binaries) for version in reversed(element.findall("History/Entry"))]
        self.tags = text_in(element, "Tags")
        self.values, self.hidden, self.attachments = {}, {}, {}
        for string in element.findall("String"):
            key, value = text_in(string, "Key"), string.findall("Value")
            self.values[key] = text_in(string, "Value")
            self.hidden[key] = bool(value) and any(
                is_true(value[-1].get(name)) for name in ("Protected", "ProtectInMemory"))
        for binary in element.findall("Binary"):
            value = binary.find("Value")
            number = value.get("Ref")
            content = base64.b64decode(value.text or "") if number is None else binaries[int(number)]
            self.attachments[text_in(binary, "Key")] = content

    def value(self, key):
        return self.values.get(key, "")

    def others(self):
        """The keys of the other fields, which rise by their bytes."""
        return sorted((key for key in self.values if key not in NAMED.values()), key=str.encode)


class Group:
    def __init__(self, element, binaries):
        self.name = text_in(element, "Name")
        self.searching = {"true": True, "false": False}.get(text_in(element, "EnableSearching").strip().lower())
        self.entries = [Entry(entry, binaries) for entry in element.findall("Entry")]
        self.groups = [Group(group, binaries) for group in element.findall("Group")]


class Document:
    def __init__(self, text):
        top = ElementTree.fromstring(text)
        binaries = {int(binary.get("ID")): base64.b64decode(binary.text or "")
                    for binary in top.findall("Meta/Binaries/Binary")}
        self.root = Group(top.find("Root/Group"), binaries)

    def walk(self, group=None, names=(), searched=True):
        """Each entry in document order (a group's entries, then its groups one after another), with its
        path (the names of its groups below the root and its title, joined by slashes), the name of
        its group, and whether it is searched: as the nearest group says that does not leave it open."""
        group = group or self.root
        searched = searched if group.searching is None else group.searching
        for entry in group.entries:
            yield entry, "/".join((*names, entry.value("Title"))), group.name, searched
        for below in group.groups:
            yield from self.walk(below, (*names, below.name), searched)


# ---- references

# `{REF:W@S:text}`, letters in any case: the part W of the first entry that has the text at S.
REFERENCE = re.compile(r"\{REF:([TUPANI])@([TUPANIO]):([^}]+)\}", re.IGNORECASE | re.ASCII)
MOST_REFERENCES = 65536
MOST_BYTES = 1048576
MOST_LEVELS = 10


class Resolving:
    def __init__(self, document):
        self.entries = [entry for entry, *_ in document.walk()]
        self.references, self.bytes, self.pieces = 0, 0, []

    def find(self, place, text):
        """The first entry in document order whose current value as it stands is the text. I is the id in 32
        digits of any case, and O any other field."""
        for entry in self.entries:
            if place == "I":
                found = re.fullmatch("[0-9A-Fa-f]{32}", text) and entry.id.hex == text.lower()
            elif place == "O":
                found = any(entry.values[key] == text for key in entry.others())
            else:
                found = entry.values.get(NAMED[place]) == text
            if found:
                return entry

    def put(self, text):
        self.bytes += len(text.encode())
        if self.bytes > MOST_BYTES:
            raise Refused(8, None, "limit passed")
        self.pieces.append(text)

    def replace(self, match, level):
        """A reference to no entry stands; any other is replaced, and its value is one level deeper. Both count."""
        wanted, place, text = match[1].upper(), match[2].upper(), match[3]
        self.references += 1
        if self.references > MOST_REFERENCES:
            raise Refused(8, None, "limit passed")
        entry = self.find(place, text)
        if entry is None:
            return self.put(match[0])
        self.resolve(entry.id.hex.upper() if wanted == "I" else entry.value(NAMED[wanted]), level + 1)

    def resolve(self, text, level=1):
        """From left to right; below the tenth level references stand."""
        if level > MOST_LEVELS:
            return self.put(text)
        after = 0
        for match in REFERENCE.finditer(text):
            self.put(text[after:match.start()])
            self.replace(match, level)
            after = match.end()
        self.put(text[after:])


def resolved(document, text):
    resolving = Resolving(document)
    resolving.resolve(text)
    return "".join(resolving.pieces)


# ---- terms

FIELDS = {"title": "Title", "t": "Title", "username": "UserName", "user": "UserName", "u": "UserName",
          "password": "Password", "pass": "Password", "p": "Password", "url": "URL", "notes": "Notes",
          "n": "Notes", "tags": "tags", "group": "group", "g": "group", "attr": "attr"}

# Signs in any order, then a field and a colon or nothing, then a text: from a quotation mark to the
# next or to the end, or else up to a space.
TERM = re.compile(r'([-+!]*)(?:(%s):)?(?:"([^"]*)(?:"|\Z)|([^ ]*))' % "|".join(FIELDS))


def terms(text):
    """Terms as (not, whole, field, text), separated by spaces or by the end of quotation marks."""
    found, at = [], 0
    while at < len(text):
        if text[at] == " ":
            at += 1
            continue
        match = TERM.match(text, at)
        wanted = match[4] if match[3] is None else match[3]
        if not wanted:
            raise Refused(1, "words", "empty term at %d" % len(text[:at].encode()))
        found.append(("!" in match[1] or "-" in match[1], "+" in match[1], FIELDS.get(match[2]), wanted))
        at = match.end()
    if not found:
        raise Refused(1, "words", "empty term at 0")
    return found


def compared(field, entry, group):
    """The values that a term is compared with, as they stand."""
    if field is None:
        return [entry.value(key) for key in ("Title", "UserName", "URL", "Notes")] + [entry.tags]
    if field == "tags":
        return [entry.tags]
    if field == "group":
        return [group]
    if field == "attr":
        return [entry.values[key] for key in entry.others()]
    return [entry.value(field)]


def is_match(term, entry, group):
    negative, whole, field, text = term
    text = text.casefold()
    values = [value.casefold() for value in compared(field, entry, group)]
    return any(text == value if whole else text in value for value in values) != negative


# ---- what is printed


def answered(file, compose):
    try:
        return 0, compose(), ""
    except Refused as refused:
        status, subject, text = refused.answer
        return status, "", "keepass: %s: %s\n" % (subject or file, text)


def search(document, file, text):
    """The path of each entry that matches all terms, after a slash."""

    def compose():
        asked = terms(text)
        lines = ["/%s\n" % path for entry, path, group, searched in document.walk()
                 if searched and all(is_match(term, entry, group) for term in asked)]
        if not lines:
            raise Refused(2, None, "no results")
        return "".join(lines)

    return answered(file, compose)


def show(document, file, path, clear=False, all=False, attachments=False, names=(), at=0):
    """Without names: a line for each of the five fields, with `all` the others by rising key, then the
    id and the tags; a hidden value is PROTECTED unless it is asked for. With names: their values
    alone. First the entry of this id in braces is looked for, then the path, then the version that
    has the number, then every name, and then values are resolved, in what is current."""

    def value(entry, key, clear):
        if entry.hidden.get(key) and not clear:
            return "PROTECTED"
        return resolved(document, entry.value(key))

    def compose():
        entry = next((entry for entry, *_ in document.walk() if path == "{%s}" % entry.id), None) \
            or next((entry for entry, own, *_ in document.walk() if path in (own, "/" + own)), None)
        if entry is None:
            raise Refused(2, None, "not found")
        if at > len(entry.older):
            raise Refused(2, None, "no version %d" % at)
        entry = [entry, *entry.older][at]
        for name in names:
            if name not in entry.values and name not in NAMED.values():
                raise Refused(2, None, "no attribute " + name)
        lines = [value(entry, name, True) for name in names]
        if not names:
            keys = list(NAMED.values()) + (entry.others() if all else [])
            lines = ["%s: %s" % (key, value(entry, key, clear)) for key in keys]
            lines += ["Uuid: {%s}" % entry.id, "Tags: " + entry.tags]
        if attachments:
            held = sorted(entry.attachments.items(), key=lambda item: item[0].encode())
            lines += ["Attachments:"] + ["  %s (%d bytes)" % (name, len(content)) for name, content in held]
        return "".join(line + "\n" for line in lines)

    return answered(file, compose)


# ---- trying the program


def written(text):
    return text.replace("&", "&amp;").replace("<", "&lt;").replace(">", "&gt;").replace("\r", "&#xD;")


def entry_of(number, fields, tags="", binaries=(), older=""):
    """The text of an entry, whose id repeats a byte; fields are (key, value) or (key, value, True)."""
    text = "<Entry><UUID>%s</UUID>" % base64.b64encode(bytes([number]) * 16).decode()
    for key, value, *hidden in fields:
        text += "<String><Key>%s</Key><Value%s>%s</Value></String>" % (
            written(key), ' ProtectInMemory="True"' if hidden else "", written(value))
    for name, content in binaries:
        text += "<Binary><Key>%s</Key><Value>%s</Value></Binary>" % (written(name), base64.b64encode(content).decode())
    return text + "<Tags>%s</Tags><History>%s</History></Entry>" % (written(tags), older)


def group_of(number, name, inside="", searching="null"):
    return "<Group><UUID>%s</UUID><Name>%s</Name><EnableSearching>%s</EnableSearching>%s</Group>" % (
        base64.b64encode(bytes([number]) * 16).decode(), written(name), searching, inside)


def document_of(inside):
    return "<KeePassFile><Root>%s</Root></KeePassFile>" % group_of(1, "Root", inside)


def words_of(call, file, *given, **options):
    """The words of a call of the program that is to do the same."""
    if call is search:
        return ["search", "--plain", "--", file, *given]
    words = ["show", "--plain"]
    words += [word for name, word in (("clear", "-s"), ("all", "--all"), ("attachments", "--show-attachments"))
              if options.get(name)]
    words += ["--attributes=" + name for name in options.get("names", ())]
    words += ["--at=%d" % options["at"]] if "at" in options else []
    return words + ["--", file, *given]


class Trial:
    """Calls that are tried, on this reading and, where there is one, on a program."""

    def __init__(self, program):
        self.program, self.passed, self.failed = program, 0, 0

    def count(self, name, got, want):
        if got == want:
            self.passed += 1
            return
        self.failed += 1
        print("FAILED: %s\n  wanted %r\n  found  %r" % (name, want, got))

    def call(self, text, call, *given, **options):
        """What this reading gives; the program is to give the same."""
        with tempfile.TemporaryDirectory() as folder:
            file = os.path.join(folder, "d.xml")
            want = call(Document(text), file, *given, **options)
            if self.program:
                with open(file, "w", encoding="utf-8", newline="") as out:
                    out.write(text)
                ran = subprocess.run([self.program, *words_of(call, file, *given, **options)],
                                     capture_output=True, check=False)
                self.count("%s %r %r on %s" % (call.__name__, given, options, text),
                           (ran.returncode, ran.stdout.decode(), ran.stderr.decode()), want)
        return want[0], want[1], want[2].replace(file, "FILE")

    def row(self, name, want, *given, **options):
        """A worked case: the answer is also told."""
        self.count(name, self.call(*given, **options), want)


OWN = "{REF:T@I:02020202020202020202020202020202}"
SMALL = document_of(
    entry_of(2, [("Title", OWN)])
    + entry_of(3, [("Title", "Mail"), ("UserName", "me:{REF:P@t:Bank}"), ("Password", "s3", True), ("Pin", "77", True),
                   ("PIN", "{ref:n@o:77}"), ("Notes", "Straße\nİ {REF:I@T:Bank}{REF:O@T:Bank}{REF:T@T:}")],
               "home;Work", [("b.txt", b"12345"), ("a.txt", b"")])
    + group_of(4, "Work", entry_of(5, [("Title", "Bank"), ("URL", "HTTPS://x/"), ("Password", "{REF:A@T:Bank}", True)])
               + group_of(6, "Shared", entry_of(171, [("Title", "bank two")]), "True"), "False"))


def worked_cases(trial):
    def empty(place):
        return 1, "", "keepass: words: empty term at %d\n" % place

    own_lines = "UserName: \nPassword: \nURL: \nNotes: \nUuid: {02020202-0202-0202-0202-020202020202}\nTags: \n"
    none = 2, "", "keepass: FILE: no results\n"
    trial.row("a title that refers to itself", (0, "Title: %s\n%s" % (OWN, own_lines), ""), SMALL, show, OWN)
    trial.row("a path that is none", (2, "", "keepass: FILE: not found\n"), SMALL, show, "Nope", names=("Nope",))
    notes = "Straße\nİ 05050505050505050505050505050505{REF:O@T:Bank}{REF:T@T:}\n"
    trial.row("hidden values are not resolved", (0, "Title: Mail\nUserName: me:HTTPS://x/\nPassword: PROTECTED\nURL: \nNotes: "
              + notes + "PIN: " + notes + "Pin: PROTECTED\nUuid: {03030303-0303-0303-0303-030303030303}\nTags: home;Work\n"
              "Attachments:\n  a.txt (0 bytes)\n  b.txt (5 bytes)\n", ""), SMALL, show, "/Mail", all=True, attachments=True)
    trial.row("named values are shown", (0, "s3\n\n77\nAttachments:\n  a.txt (0 bytes)\n  b.txt (5 bytes)\n", ""),
              SMALL, show, "Mail", names=("Password", "URL", "Pin"), all=True, attachments=True)
    trial.row("an attribute is missing", (2, "", "keepass: FILE: no attribute pin\n"), SMALL, show, "Mail", names=("Pin", "pin"))
    trial.row("an entry by its id", (0, "s3\n", ""), SMALL, show, "{03030303-0303-0303-0303-030303030303}", names=("Password",))
    trial.row("an id with a slash is none", (2, "", "keepass: FILE: not found\n"), SMALL, show, "/{03030303-0303-0303-0303-030303030303}")
    older = entry_of(2, [("Title", "Old"), ("UserName", "was:{REF:U@T:Bank}{REF:U@T:Old}")]) + entry_of(2, [("Notes", "a note")])
    two = document_of(entry_of(2, [("Title", "Bank"), ("UserName", "ada")], older=older))
    trial.row("the last of the history is the first version", (0, "a note\n", ""), two, show, "Bank", names=("Notes",), at=1)
    trial.row("a version before that", (0, "Old\nwas:ada{REF:U@T:Old}\n", ""), two, show, "Bank", names=("Title", "UserName"), at=2)
    trial.row("no such version, before a name", (2, "", "keepass: FILE: no version 3\n"), two, show, "Bank", names=("x",), at=3)
    trial.row("no such entry, before a version", (2, "", "keepass: FILE: not found\n"), two, show, "Old", at=3)
    trial.row("clear", (0, "HTTPS://x/\n", ""), SMALL, show, "Work/Bank", names=("Password",))
    for words, want in [
            ("ba", (0, "/Mail\n/Work/Shared/bank two\n", "")), ("t:ba", (0, "/Work/Shared/bank two\n", "")), ("title:", empty(0)), ("zz", none), ("", empty(0)), ("   ", empty(0)),
            ('a  -t:""', empty(3)), ("é +", empty(3)), ('+title:"bank two"bank', (0, "/Work/Shared/bank two\n", "")),
            ("STRASSE", (0, "/Mail\n", "")), ("n:i\u0307", (0, "/Mail\n", "")), ("attr:77 -p:S4", (0, "/Mail\n", "")),
            ("+g:root !pin", (0, "/%s\n/Mail\n" % OWN, "")), ("+attr:7", none), ("Title:ba", none), ("tags:work", (0, "/Mail\n", "")),
            ('-"', empty(0)), ("t:+b", none), ('!+-t:mail u:', empty(10)), ("g:share", (0, "/Work/Shared/bank two\n", ""))]:
        trial.row("search %r" % words, want, SMALL, search, words)

    chain = [entry_of(10 + n, [("Title", "t%d" % n), ("Notes", "{REF:N@T:t%d}" % (n + 1))]) for n in range(10)]
    deep = document_of("".join(chain) + entry_of(20, [("Title", "t10"), ("Notes", "end")]))
    trial.row("ten replacements lie within one another", (0, "end\n", ""), deep, show, "t0", names=("Notes",))
    deeper = document_of(entry_of(9, [("Title", "t"), ("Notes", "{REF:N@T:t0}")]) + "".join(chain)
                         + entry_of(20, [("Title", "t10"), ("Notes", "end")]))
    trial.row("an eleventh stays", (0, "{REF:N@T:t10}\n", ""), deeper, show, "t", names=("Notes",))

    limit = 8, "", "keepass: FILE: limit passed\n"
    for count, want in [(MOST_REFERENCES, (0, "\n", "")), (MOST_REFERENCES + 1, limit)]:
        many = document_of(entry_of(2, [("Title", "m"), ("Notes", "{REF:U@T:m}" * count)]))
        trial.row("%d references" % count, want, many, show, "m", names=("Notes",))
        # A hidden value that is not shown is not resolved, so it refuses nothing.
        many = document_of(entry_of(2, [("Title", "m"), ("Notes", "{REF:U@T:m}" * count, True)]))
        trial.row("%d hidden references" % count, (0, "Title: m\nUserName: \nPassword: \nURL: \nNotes: PROTECTED\n"
                  "Uuid: {02020202-0202-0202-0202-020202020202}\nTags: \n", ""), many, show, "m")
    for length, want in [(MOST_BYTES, (0, "é" * (MOST_BYTES // 2) + "\n", "")), (MOST_BYTES + 1, limit)]:
        long = document_of(entry_of(2, [("Title", "m"), ("Notes", "x" * (length % 2) + "é" * (length // 2))]))
        trial.row("%d bytes" % length, want, long, show, "m", names=("Notes",))
    trial.row("a missing attribute comes before a limit", (2, "", "keepass: FILE: no attribute x\n"),
              long, show, "m", names=("Notes", "x"))


def random_calls(trial, count, seed):
    """Calls over random documents of few letters, so that many of them find something."""
    chance = random.Random(seed)

    def text(most=6):
        pieces = ["a", "b", "A", "ß", "ss", "SS", "ẞ", "İ", "i\u0307", "Σ", "ς", " ", "/", ":", '"', "+", "-", "!", "\n", "}", "x",
                  "{REF:T@T:a}", "{REF:U@U:b}", "{ref:p@O:x}", "{REF:i@n:a}", "{REF:N@I:%s}" % ("03" * 16),
                  "{REF:A@A:", "{REF:T@O:a}", "{REF:O@T:a}", "{REF:T@T:}"]
        return "".join(chance.choice(pieces) for _ in range(chance.randint(0, most)))

    def entry(numbers):
        number = next(numbers)
        return version(number, "".join(version(number) for _ in range(chance.choice([0, 0, 0, 1, 2]))))

    def version(number, older=""):
        keys = chance.sample(["Title", "UserName", "Password", "URL", "Notes", "x", "X", "Other", "title"], chance.randint(0, 7))
        fields = [(key, text(), *([True] if chance.random() < 0.3 else [])) for key in keys]
        binaries = [(name, bytes(chance.randint(0, 9))) for name in ("f", "é")[:chance.randint(0, 2)]]
        return entry_of(number, fields, text(3), binaries, older)

    def inside(numbers, most, depth):
        held = "".join(entry(numbers) for _ in range(chance.randint(0, most)))
        for _ in range(chance.randint(0, 2) if depth else 0):
            held += group_of(next(numbers), text(2), inside(numbers, 3, depth - 1), chance.choice(["null", "null", "True", "False"]))
        return held

    def word():
        signs = "".join(chance.choice("+-!") for _ in range(chance.choice([0, 0, 0, 1, 2])))
        field = chance.choice(["", "", *FIELDS, "x", "Title"])
        quoted = chance.choice(["%s", "%s", '"%s"', '"%s'])
        return signs + field + (":" if field else chance.choice(["", "", ":"])) + quoted % text(2)

    for _ in range(count):
        document = document_of(inside(iter(range(2, 256)), 4, 3))
        if chance.random() < 0.5:
            trial.call(document, search, chance.choice([" ", "", "  "]).join(word() for _ in range(chance.randint(0, 3))))
            continue
        paths = [path for _, path, *_ in Document(document).walk()] + [text(2)]
        paths += ["{%s}" % entry.id for entry, *_ in Document(document).walk()][:3]
        names = [chance.choice(["Title", "Notes", "Password", "x", "X", "Other", "title"]) for _ in range(chance.choice([0, 0, 1, 2]))]
        trial.call(document, show, chance.choice(["", "", "/"]) + chance.choice(paths), names=tuple(names), **chance.choice([{}, {"at": 0}, {"at": 1}, {"at": 1}, {"at": 2}]),
                   **{option: chance.random() < 0.5 for option in ("clear", "all", "attachments")})


def main(words):
    trial = Trial(words[0] if words else None)
    worked_cases(trial)
    if words:
        random_calls(trial, int(words[1]) if len(words) > 1 else 200, int(words[2]) if len(words) > 2 else 1)
    print("%d passed, %d failed" % (trial.passed, trial.failed))
    return 1 if trial.failed else 0


if __name__ == "__main__":
    sys.exit(main(sys.argv[1:]))
