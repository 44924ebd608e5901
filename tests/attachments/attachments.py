#!/usr/bin/env python3
"""A slow model of `keepass attachment-export`, `attachment-import` and `attachment-rm`, written from the rules alone: what a call prints or refuses,
and every byte of what it writes. Documents are read and written by the model of tests/moving; `history`, `show` and `edit` are those of the model of
tests/fields.

    attachments.py WORD...      does what the program does with these words (--plain alone), so that the tests can be tried on it"""
import copy, os, sys, time

sys.dont_write_bytecode = True
here = os.path.dirname(os.path.realpath(__file__))
sys.path[1:1] = [os.path.join(here, "..", "fields")]
import fields
from fields import documents, versions

Refused = documents.Refused
COMMANDS = "attachment-export", "attachment-import", "attachment-rm"


class Words:
    """What right words of these commands say."""

    def __init__(self, words):
        self.quiet = self.force = self.stdout = False
        self.positions, rest = [], list(words[1:])
        while rest:
            word = rest.pop(0)
            if word == "--":
                self.positions += rest
                break
            if word in ("-q", "--quiet"):
                self.quiet = True
            elif word in ("-f", "--force"):
                self.force = True
            elif word == "--stdout":
                self.stdout = True
            elif word in ("-fq", "-qf"):
                self.quiet = self.force = True
            else:
                self.positions.append(word)


def read(name):
    """The bytes of a file."""
    documents.refuse_if(not os.path.lexists(name), 7, "no such file")
    with open(name, "rb") as file:
        return file.read()


def entry_and(document, path, name):
    """An entry, and its attachment of a name, if it has one."""
    entry = documents.find_entry(document, path).node
    return entry, entry["Binary"].get(name)


def replaced(document, path, change, now):
    """The document with another version of an entry, whose attachments are changed."""
    document = copy.deepcopy(document)
    entry = documents.find_entry(document, path).node
    documents.edit_entry(document, path, {}, now)
    change(entry["Binary"])
    versions.settle(document, entry)
    return document


def exported(document, asked):
    """The bytes of an attachment."""
    _, path, name, *_ = asked.positions
    _, found = entry_and(document, path, name)
    documents.refuse_if(found is None, 2, f"no attachment {name}")
    return found["Value"][0]


def imported(document, asked, content, now):
    _, path, name, _ = asked.positions
    documents.refuse_if(now > documents.LAST, 8, "limit passed")
    _, found = entry_and(document, path, name)
    documents.refuse_if(found is not None and not asked.force, 2, "already there")
    hidden = found is None or found["Value"][1]
    return replaced(document, path, lambda files: files.update({name: {"Key": name, "Value": (content, hidden)}}), now)


def removed(document, asked, now):
    _, path, name = asked.positions
    documents.refuse_if(now > documents.LAST, 8, "limit passed")
    documents.refuse_if(entry_and(document, path, name)[1] is None, 2, f"no attachment {name}")
    return replaced(document, path, lambda files: files.pop(name), now)


class Said:
    """What a call prints, the document that it writes, and the bytes that it puts into a new file, each if it does so; or its refusal, with the file
    that it is about."""

    def __init__(self, text=b"", document=None, taken=None, refused=None, about=None):
        self.text, self.document, self.taken, self.refused, self.about = text, document, taken, refused, about


def said(document, words, now, lines=()):
    """What a call does, with these lines after the one that opens the database. The document that is given is left as it was."""
    file = "FILE"
    try:
        if words[0] not in COMMANDS:
            text, document = fields.said(document, words, lines, now)
            return Said(text.encode(), document)
        asked = Words(words)
        file, path, name, *more = asked.positions
        if words[0] == "attachment-export":
            if more and os.path.exists(more[0]):
                return Said(refused=Refused(2, "file exists"), about=more[0])
            content = exported(document, asked)
            if asked.stdout:
                return Said(content)
            text = f"Successfully exported attachment {name} of entry {path} to {more[0]}.\n"
            return Said(b"" if asked.quiet else text.encode(), taken=content)
        if words[0] == "attachment-import":
            file = more[0]
            content = read(more[0])
            file = asked.positions[0]
            document, text = imported(document, asked, content, now), f"Successfully imported attachment {more[0]} as {name} to entry {path}.\n"
        else:
            document, text = removed(document, asked, now), f"Successfully removed attachment {name} from entry {path}.\n"
        return Said(b"" if asked.quiet else text.encode(), document)
    except Refused as refused:
        return Said(refused=refused, about=file)


def main(words):
    words = [word for word in words if word != "--plain"]
    with open("FILE", "rb") as stream:
        document = documents.document_of(stream.read())
    found = said(document, words, documents.seconds(time.time()))
    if found.refused is not None:
        print(f"keepass: {found.about}: {found.refused.text}", file=sys.stderr)
        return found.refused.status
    if found.document is not None:
        with open("FILE.new", "wb") as stream:
            stream.write(documents.spelled(found.document))
        os.replace("FILE.new", "FILE")
    if found.taken is not None:
        with open(os.open(Words(words).positions[3], os.O_WRONLY | os.O_CREAT | os.O_EXCL, 0o600), "wb") as stream:
            stream.write(found.taken)
    sys.stdout.buffer.write(found.text)
    return 0


if __name__ == "__main__":
    sys.exit(main(sys.argv[1:]))
