#!/usr/bin/env python3
"""A slow model of `keepass edit` with fields of an entry's own, tags and an expiry, written from the rules alone: what a call prints or refuses,
and every byte of the document that it writes. Documents are read and written by the model of tests/moving; what else `edit` does, `history` and
`show` are those of the model of tests/versions.

    fields.py WORD...           does what the program does with these words of `edit`, `history` and `show` (--plain alone), and the lines of
                                standard input, so that the tests can be tried on it"""
import datetime, os, re, sys, time

sys.dont_write_bytecode = True
here = os.path.dirname(os.path.realpath(__file__))
sys.path[1:1] = [os.path.join(here, "..", "versions")]
import versions
from versions import documents

Refused = documents.Refused
# White space as Unicode has it: its property White_Space.
WHITE = "".join(map(chr, [*range(9, 14), 32, 0x85, 0xA0, 0x1680, *range(0x2000, 0x200B), 0x2028, 0x2029, 0x202F, 0x205F, 0x3000]))


def tags_in(text):
    parts = [part.strip(WHITE) for part in re.split("[;,]", text)]
    return [part for part in parts if part]


def with_tags(text, tags, untags):
    """The text of tags, with some put to them and some taken away; where nothing is asked for it stays as it is."""
    if not tags and not untags:
        return text
    found = tags_in(text)
    for tag in tags:
        if tag not in found:
            found.append(tag)
    return ";".join(tag for tag in found if tag not in untags)


def seconds(text):
    """The seconds since the year 1 of a time such as 2027-01-31T00:00:00Z."""
    moment = datetime.datetime.strptime(text, "%Y-%m-%dT%H:%M:%SZ")
    return int((moment - datetime.datetime(1, 1, 1)).total_seconds())


class Words:
    """What right words of `edit` say, with the lines of the input that they ask for."""

    VALUES = {"-t": "Title", "--title": "Title", "-u": "UserName", "--username": "UserName", "--url": "URL", "--notes": "Notes"}

    def __init__(self, words, lines):
        self.values, self.names, self.unset, self.tags, self.untags = {}, [], [], [], []
        self.expires, self.protect, self.quiet, self.positions = None, False, False, []
        flags, lines = set(), list(lines)
        words = [word for word in words[1:]]
        while words:
            word = words.pop(0)
            option, sign, value = word.partition("=")
            if word == "--":
                self.positions += words
                break
            if word in ("-q", "--quiet", "-p", "--password-prompt", "--otp", "--protect"):
                flags.add(word)
            elif option in self.VALUES:
                self.values[self.VALUES[option]] = value if sign else words.pop(0)
            elif option in ("--set", "--unset", "--tag", "--untag"):
                kept = {"--set": self.names, "--unset": self.unset, "--tag": self.tags, "--untag": self.untags}[option]
                kept.append(value if sign else words.pop(0))
            elif option == "--expires":
                self.expires = value if sign else words.pop(0)
            else:
                self.positions.append(word)
        self.quiet, self.protect = bool(flags & {"-q", "--quiet"}), "--protect" in flags
        if flags & {"-p", "--password-prompt"}:
            self.values["Password"] = lines.pop(0)
        if "--otp" in flags:
            self.values["otp"] = lines.pop(0)
        self.fields = [(name, lines.pop(0)) for name in self.names]


def edited(document, path, asked, now):
    """Changes an entry as it is asked for, and gives its title."""
    entry = documents.find_entry(document, path).node
    for name in asked.unset:
        documents.refuse_if(name not in entry["String"], 2, f"no attribute {name}")
    documents.edit_entry(document, path, asked.values, now)
    fields = entry["String"]
    for name, value in asked.fields:
        hidden = asked.protect or name in fields and fields[name]["hidden"]
        fields[name] = {"Key": name, "Value": value, "hidden": hidden}
    for name in asked.unset:
        fields.pop(name, None)
    entry["Tags"] = with_tags(entry["Tags"], asked.tags, asked.untags)
    if asked.expires is not None:
        entry["Times"]["Expires"] = asked.expires != "never"
    if asked.expires not in (None, "never"):
        entry["Times"]["ExpiryTime"] = seconds(asked.expires)
    versions.settle(document, entry)
    return documents.title(entry)


def said(document, words, lines, now):
    """What a call prints, and the document that it writes, if it writes one. The document that is given is left as it was."""
    if words[0] != "edit" or any(word.startswith("--restore") for word in words):
        return versions.said(document, words, now)
    asked, document = Words(words, lines), versions.copy.deepcopy(document)
    documents.refuse_if(now > documents.LAST, 8, "limit passed")
    name = edited(document, asked.positions[1], asked, now)
    return "" if asked.quiet else f"Successfully edited entry {name}.\n", document


def main(words):
    words = [word for word in words if word != "--plain"]
    file = next(word for word in words if word == "FILE")
    lines = sys.stdin.buffer.read().decode().split("\n")
    with open(file, "rb") as stream:
        document = documents.document_of(stream.read())
    try:
        text, document = said(document, words, lines, documents.seconds(time.time()))
    except Refused as refused:
        print(f"keepass: {file}: {refused.text}", file=sys.stderr)
        return refused.status
    if document is not None:
        with open(file + ".new", "wb") as stream:
            stream.write(documents.spelled(document))
        os.replace(file + ".new", file)
    print(text, end="")
    return 0


if __name__ == "__main__":
    sys.exit(main(sys.argv[1:]))
