#!/usr/bin/env python3
"""A slow model of `keepass history`, `show --at` and `edit --restore`, written from the rules alone: what a call prints or refuses, and every
byte of the document that it writes. Documents are read and written by the model of tests/moving, shown by the one of tests/showing, and their
versions are told apart and put into order by the one of tests/merging.

    versions.py WORD...         does what the program does with these words (--plain alone, and an `edit` that gives a title, a user name, an
                                address or notes), so that the tests can be tried on it"""
import copy, os, sys, time, types

sys.dont_write_bytecode = True
here = os.path.dirname(os.path.realpath(__file__))
sys.path[1:1] = [os.path.join(here, "..", "showing"), os.path.join(here, "..", "merging")]
import joining, showing
from showing import documents

Refused = showing.Refused
# The parts in which versions differ beside their fields, by the names that are printed, in this order.
PARTS = {
    "icon": lambda version: (version["IconID"], version["CustomIconUUID"]),
    "tags": lambda version: version["Tags"],
    "expiry": lambda version: (version["Times"]["Expires"], version["Times"]["ExpiryTime"]),
    "attachments": lambda version: version["Binary"],
    "colours": lambda version: (version["ForegroundColor"], version["BackgroundColor"]),
    "other": lambda version: (version["Times"]["CreationTime"], version["OverrideURL"], version["AutoType"], version["CustomData"],
                              version["QualityCheck"])}


# ---- history


def changes(newer, older):
    """The names of what differs in two versions."""
    fields = [key for key in newer["String"].keys() | older["String"].keys() if newer["String"].get(key) != older["String"].get(key)]
    return sorted(fields, key=str.encode) + [name for name, part in PARTS.items() if part(newer) != part(older)]


def moment(version):
    return documents.Writer.time(types.SimpleNamespace(stream=None), version["Times"]["LastModificationTime"])


def history(document, path):
    """A line for each version of an entry."""
    found = showing.versions(documents.find_entry(document, path).node)
    texts = [", ".join(changes(newer, older)) for newer, older in zip(found, found[1:])] + ["-"]
    return "".join(f"{number}  {moment(version)}  {text}\n" for number, (version, text) in enumerate(zip(found, texts)))


# ---- edit


def size(version):
    """The bytes of names and contents of the fields and attachments of a version."""
    fields = [len(key.encode()) + len(field["Value"].encode()) for key, field in version["String"].items()]
    return sum(fields) + sum(len(name.encode()) + len(file["Value"][0]) for name, file in version["Binary"].items())


def rising(versions):
    """These versions in rising order of time and content; those that are equal in both are one, which was seen last when one of them was, and
    used as often as one of them."""
    found = joining.Database(None)
    for version in versions:
        found.add_version(None, version, joining.stats_of(version))
    return list(joining.versions_of(found, None))


def within_limits(meta, versions):
    """The longest end of a history that has no more versions and no more bytes than may be; a negative limit is none."""
    most, bytes_ = meta["HistoryMaxItems"], meta["HistoryMaxSize"]
    while versions and (0 <= most < len(versions) or 0 <= bytes_ < sum(map(size, versions))):
        versions = versions[1:]
    return versions


def settle(document, entry):
    entry["History"]["Entry"] = within_limits(document["Meta"], rising(entry["History"]["Entry"]))


def edited(document, path, values, now):
    """Gives an entry other values."""
    entry = documents.find_entry(document, path).node
    documents.edit_entry(document, path, values, now)
    settle(document, entry)
    return documents.title(entry)


def restored(document, path, number, now):
    """Makes a version of an entry the current one."""
    entry = documents.find_entry(document, path).node
    again = copy.deepcopy(showing.version(entry, number))
    now = documents.time_after(now, max(version["Times"]["LastModificationTime"] for version in showing.versions(entry)))
    entry["History"]["Entry"].append(copy.deepcopy({key: part for key, part in entry.items() if key != "History"}))
    entry |= {key: part for key, part in again.items() if key not in ("UUID", "PreviousParentGroup", "Times", "History")}
    entry["Times"] |= {name: again["Times"][name] for name in ("CreationTime", "ExpiryTime", "Expires")}
    entry["Times"] |= {"LastModificationTime": now, "LastAccessTime": now}
    settle(document, entry)
    return documents.title(entry)


# ---- words


class Words:
    """What right words of `edit` say: the values that are given, the number of a version, and the positions."""

    VALUES = {"-t": "Title", "--title": "Title", "-u": "UserName", "--username": "UserName", "--url": "URL", "--notes": "Notes", "--restore": None}

    def __init__(self, words):
        self.values, self.number, self.quiet, self.positions = {}, None, False, []
        words = list(words[1:])
        while words:
            word = words.pop(0)
            option, sign, value = word.partition("=")
            if word == "--":
                self.positions += words
                break
            if word in ("-q", "--quiet"):
                self.quiet = True
            elif option in self.VALUES:
                self.give(self.VALUES[option], value if sign else words.pop(0))
            else:
                self.positions.append(word)

    def give(self, key, value):
        if key is None:
            self.number = int(value)
        else:
            self.values[key] = value


def said(document, words, now):
    """What a call prints, and the document that it writes, if it writes one. The document that is given is left as it was."""
    if words[0] == "history":
        return history(document, *showing.Words(words).positions), None
    if words[0] != "edit":
        return showing.said(document, showing.Words(words)), None
    asked, document = Words(words), copy.deepcopy(document)
    path = asked.positions[1]
    documents.refuse_if(now > documents.LAST, 8, "limit passed")
    name = edited(document, path, asked.values, now) if asked.number is None else restored(document, path, asked.number, now)
    return "" if asked.quiet else f"Successfully edited entry {name}.\n", document


def stand_in(words):
    path = Words(words).positions[0] if words[0] == "edit" else showing.Words(words).file
    try:
        with open(path, "rb") as file:
            document = documents.document_of(file.read())
        text, new = said(document, [word for word in words if word != "--plain"], documents.seconds(time.time()))
    except Refused as refused:
        sys.stderr.write(f"keepass: {path}: {refused.text}\n")
        return refused.status
    if new is not None:
        joining.written(path, new)
    sys.stdout.buffer.write(text.encode())
    return 0


if __name__ == "__main__":
    sys.exit(stand_in([word for word in sys.argv[1:] if word != "--plain"]))
