"""A slow model of references and searches, written from the rules alone. Documents are those of the model of tests/moving."""
import os, sys

sys.dont_write_bytecode = True
here = os.path.dirname(os.path.realpath(__file__))
sys.path.insert(0, os.path.join(here, "..", "moving"))
import model as documents

FIVE = "Title", "UserName", "Password", "URL", "Notes"
LETTERS = dict(zip("TUPAN", FIVE))
MOST_REFERENCES, MOST_BYTES, LEVELS = 65536, 1048576, 10
NAMES = {"title": "Title", "t": "Title", "username": "UserName", "user": "UserName", "u": "UserName", "password": "Password", "pass": "Password",
         "p": "Password", "url": "URL", "notes": "Notes", "n": "Notes", "tags": "tags", "group": "group", "g": "group", "attr": "attr"}
Refused = documents.Refused


def value(version, key):
    """The value of a field, empty where there is none."""
    return version["String"].get(key, {"Value": ""})["Value"]


def entries(document):
    return [found for is_entry, found in documents.walk(document["Root"]) if is_entry]


def others(version):
    """The values of the fields that are none of the five."""
    return [string["Value"] for key, string in version["String"].items() if key not in FIVE]


# ---- references


def reference_at(text, at):
    """The letters and the text of the reference that begins here, and where it ends; or None."""
    head = text[at : at + 9]
    if len(head) < 9 or not head.isascii() or head[:5].upper() != "{REF:" or head[6] != "@" or head[8] != ":":
        return None
    wanted, place = head[5].upper(), head[7].upper()
    end = text.find("}", at + 9)
    if wanted not in "TUPANI" or place not in "TUPANIO" or end <= at + 9:
        return None
    return wanted, place, text[at + 9 : end], end + 1


def has(entry, place, text):
    if place == "I":
        return len(text) == 32 and text.isascii() and text.upper() == entry["UUID"].hex().upper()
    if place == "O":
        return text in others(entry)
    return value(entry, LETTERS[place]) == text


class Resolving:
    """A text that is put together from left to right."""

    def __init__(self, document):
        self.all, self.references, self.bytes, self.parts, self.known = entries(document), 0, 0, [], {}

    def put(self, text):
        self.bytes += len(text.encode())
        if self.bytes > MOST_BYTES:
            raise Refused(8, "limit passed")
        self.parts.append(text)

    def named(self, place, text):
        if (place, text) not in self.known:
            self.known[place, text] = next((found.node for found in self.all if has(found.node, place, text)), None)
        return self.known[place, text]

    def resolve(self, text, level):
        at = start = 0
        while True:
            at = text.find("{", at)
            if at < 0:
                return self.put(text[start:])
            found = reference_at(text, at)
            if not found:
                at += 1
                continue
            wanted, place, of, end = found
            if level <= LEVELS:
                self.put(text[start:at])
                self.references += 1
                if self.references > MOST_REFERENCES:
                    raise Refused(8, "limit passed")
                entry = self.named(place, of)
                if entry is None:
                    self.put(text[at:end])
                else:
                    self.resolve(entry["UUID"].hex().upper() if wanted == "I" else value(entry, LETTERS[wanted]), level + 1)
                start = end
            at = end


def resolved(document, text):
    resolving = Resolving(document)
    resolving.resolve(text, 1)
    return "".join(resolving.parts)


# ---- terms


class Term:
    def __init__(self, unwanted, whole, field, text):
        self.unwanted, self.whole, self.field, self.text = unwanted, whole, field, text

    def matches(self, group, entry):
        values = {None: [*(value(entry, key) for key in ("Title", "UserName", "URL", "Notes")), entry["Tags"]], "tags": [entry["Tags"]],
                  "group": [group], "attr": others(entry)}
        folded, wanted = [one.casefold() for one in values.get(self.field) or ([] if self.field == "attr" else [value(entry, self.field)])], self.text.casefold()
        return any(wanted == one if self.whole else wanted in one for one in folded) != self.unwanted


def terms(text):
    """The terms of a search. The offset of one that is empty is in bytes."""
    found, at = [], 0
    while at < len(text):
        if text[at] == " ":
            at += 1
            continue
        start = at
        while text[at : at + 1] and text[at] in "!-+":
            at += 1
        signs, field = text[start:at], None
        name, colon, _ = text[at:].partition(":")
        if colon and name in NAMES:
            field, at = NAMES[name], at + len(name) + 1
        quoted = text[at : at + 1] == '"'
        at += quoted
        end = text.find('"' if quoted else " ", at)
        end = len(text) if end < 0 else end
        if end == at:
            raise Refused(1, f"empty term at {len(text[:start].encode())}")
        found.append(Term("!" in signs or "-" in signs, "+" in signs, field, text[at:end]))
        at = end + 1
    if not found:
        raise Refused(1, "empty term at 0")
    return found


def search(document, wanted):
    """The entries that match all terms, in document order."""
    def below(group, searching):
        searching = searching if group["EnableSearching"] == "inherit" else group["EnableSearching"]
        for entry in group["Entry"]:
            if searching and all(term.matches(group["Name"], entry) for term in wanted):
                found.add(entry["UUID"])
        for child in group["Group"]:
            below(child, searching)

    found = set()
    below(document["Root"], True)
    return [one for one in entries(document) if one.node["UUID"] in found]
