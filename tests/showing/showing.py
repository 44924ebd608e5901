#!/usr/bin/env python3
"""A slow model of `keepass show`, `search`, `export` and `db-info`, written from the rules alone: what a call prints, or refuses.
Documents are read and written by the model of tests/moving, and references and terms are those of references.py.

    showing.py WORD...         does what the program does with these words (--plain alone), so that the tests can be tried on it"""
import os, sys, types

sys.dont_write_bytecode = True
here = os.path.dirname(os.path.realpath(__file__))
sys.path.insert(0, here)
import references
from references import documents

FIVE = references.FIVE
COLUMNS = "Group", "Title", "Username", "Password", "URL", "Notes", "Last Modified", "Created"
Refused = documents.Refused


def value(version, key):
    return references.value(version, key)


# ---- show


def versions(entry):
    """The versions of an entry by their numbers: the current one, and then its history from the end."""
    return [entry, *reversed(entry["History"]["Entry"])]


def version(entry, number):
    found = versions(entry)
    if number >= len(found):
        raise Refused(2, f"no version {number}")
    return found[number]


def shown(document, path, clear=False, every=False, attachments=False, names=(), at=0):
    """The lines of an entry as its version of a number has them. References are resolved in the document as it is now."""
    node = documents.find_entry(document, path).node
    entry = version(node, at)
    fields = entry["String"]
    for name in names:
        if name not in FIVE and name not in fields:
            raise Refused(2, f"no attribute {name}")
    if names:
        lines = [references.resolved(document, value(entry, name)) for name in names]
    else:
        others = [string["Key"] for string in documents.in_order(fields) if string["Key"] not in FIVE]
        lines = [f"{key}: {visible(document, fields.get(key), clear)}" for key in (*FIVE, *(others if every else ()))]
        lines += [f"Uuid: {documents.braced(node['UUID'])}", f"Tags: {entry['Tags']}"]
    if attachments:
        lines.append("Attachments:")
        lines += [f"  {one['Key']} ({len(one['Value'][0])} bytes)" for one in documents.in_order(entry["Binary"])]
    return "".join(line + "\n" for line in lines)


def visible(document, field, clear):
    """What is shown of a field, which may be missing."""
    if field is None:
        return ""
    return "PROTECTED" if field["hidden"] and not clear else references.resolved(document, field["Value"])


# ---- search


def searched(document, text):
    found = references.search(document, references.terms(text))
    if not found:
        raise Refused(2, "no results")
    return "".join(f"/{one.path}\n" for one in found)


# ---- export


def quoted(text):
    return '"' + text.replace('"', '""') + '"'


def rows(document):
    """The rows of the table below its head."""
    def below(group, path):
        for entry in group["Entry"]:
            times = [documents.Writer.time(types.SimpleNamespace(stream=None), entry["Times"][name]) for name in ("LastModificationTime", "CreationTime")]
            yield [path, *(value(entry, key) for key in FIVE), *times]
        for group in group["Group"]:
            yield from below(group, f"{path}/{group['Name']}")

    yield from below(document["Root"], document["Root"]["Name"])


def table(document):
    return "".join(",".join(map(quoted, row)) + "\n" for row in [COLUMNS, *rows(document)])


def exported(document, how="xml"):
    return table(document) if how == "csv" else documents.spelled(document).decode()


# ---- db-info


class Settings:
    """What is said of a file: its version, its cipher, and its key derivation."""

    def __init__(self, version="plain", cipher="none", kdf="none"):
        self.version, self.cipher, self.kdf = version, cipher, kdf


def info(document, settings=Settings()):
    nodes = [is_entry for is_entry, _ in documents.walk(document["Root"])]
    meta = document["Meta"]
    lines = {"Name": meta["DatabaseName"], "Description": meta["DatabaseDescription"], "Version": settings.version, "Cipher": settings.cipher,
             "KDF": settings.kdf, "Groups": nodes.count(False), "Entries": nodes.count(True),
             "Recycle bin": "enabled" if meta["RecycleBinEnabled"] else "disabled"}
    return "".join(f"{name}: {text}\n" for name, text in lines.items())


# ---- words


class Words:
    """What right words say: the command, its options, and its positions."""

    FLAGS = {"-s": "clear", "--show-protected": "clear", "--all": "every", "--show-attachments": "attachments", "-q": "quiet", "--quiet": "quiet",
             "--plain": "plain"}

    def __init__(self, words):
        self.command, *words = words
        self.flags, self.names, self.format, self.at, self.positions = set(), [], "xml", 0, []
        while words:
            word = words.pop(0)
            if word == "--":
                self.positions += words
                break
            if len(word) < 2 or word[0] != "-":
                self.positions.append(word)
            elif word in self.FLAGS:
                self.flags.add(self.FLAGS[word])
            elif word in ("-a", "--attributes"):
                self.names.append(words.pop(0))
            elif word in ("-f", "--format"):
                self.format = words.pop(0)
            elif word == "--at":
                self.at = int(words.pop(0))
            elif word[:2] == "-a":
                self.names.append(word[2:].removeprefix("="))
            elif word[:2] == "-f":
                self.format = word[2:].removeprefix("=")
            elif word.startswith("--attributes="):
                self.names.append(word.partition("=")[2])
            elif word.startswith("--format="):
                self.format = word.partition("=")[2]
            elif word.startswith("--at="):
                self.at = int(word.partition("=")[2])
            else:
                self.flags |= {self.FLAGS["-" + letter] for letter in word[1:]}
        self.file = self.positions.pop(0)


def said(document, words, settings=Settings()):
    """What a call prints."""
    if words.command == "show":
        return shown(document, *words.positions, "clear" in words.flags, "every" in words.flags, "attachments" in words.flags, words.names, words.at)
    if words.command == "search":
        return searched(document, *words.positions)
    if words.command == "export":
        return exported(document, words.format)
    if words.command == "db-info":
        return info(document, settings)
    return documents.listed(document, True, True)


def stand_in(words):
    words = Words(words)
    try:
        with open(words.file, "rb") as file:
            document = documents.document_of(file.read())
        text = said(document, words)
    except Refused as refused:
        about = "words" if refused.status == 1 else words.file
        sys.stderr.write(f"keepass: {about}: {refused.text}\n")
        return refused.status
    sys.stdout.buffer.write(text.encode())
    return 0


if __name__ == "__main__":
    sys.exit(stand_in(sys.argv[1:]))
