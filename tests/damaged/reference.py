#!/usr/bin/env python3
"""A slow reader of plain documents, written from the rules alone: the second pair of eyes on tests/damaged/rows.

    reference.py ls --plain FILE    prints what the program should print, and gives its status
    reference.py --rows             reads each row's document, and prints the rows that say something else
    reference.py --made FOLDER      does the same with the documents that tests/damaged/make has made there

It goes over the text byte by byte, knows a container by the table of its children, and raises a refusal where the
rules reach it."""
import base64, datetime, os, re, sys

LIMIT_FILE, LIMIT_NODES, LIMIT_LEVELS, LIMIT_OPEN = 134217728, 262144, 128, 256
SPACE = b" \t\n\r"
NIL = bytes(16)
LAST_SECOND = 315537897599


class Refused(Exception):
    """A refusal: its status and its text."""

    def __init__(self, status, text):
        super().__init__(text)
        self.status, self.text = status, text


def form(place):
    return Refused(4, f"malformed text at {place}")


def bad_value(place):
    return Refused(4, f"bad value at {place}")


# ---- markup


def whole_characters(text):
    """The length of the longest prefix of the bytes that begins some text in UTF-8."""
    try:
        text.decode("utf-8")
        return len(text)
    except UnicodeDecodeError as error:
        place = error.start
    lead = text[place]
    count = 2 if 0xC2 <= lead <= 0xDF else 3 if 0xE0 <= lead <= 0xEF else 4 if 0xF0 <= lead <= 0xF4 else 0
    if count == 0:
        return place
    second = {0xE0: (0xA0, 0xBF), 0xED: (0x80, 0x9F), 0xF0: (0x90, 0xBF), 0xF4: (0x80, 0x8F)}.get(lead, (0x80, 0xBF))
    length = 1
    while length < count and place + length < len(text):
        least, most = second if length == 1 else (0x80, 0xBF)
        if not least <= text[place + length] <= most:
            break
        length += 1
    return place + length


def begins_name(byte):
    return byte >= 0x80 or chr(byte).isalpha() or byte in b"_:"


def goes_on_name(byte):
    return begins_name(byte) or byte in b"0123456789-."


def is_character(byte):
    return byte >= 0x20 or byte in b"\t\n\r"


class Markup:
    """The starts, stops and texts of a document, one after another. Each refusal is raised where it is reached."""

    def __init__(self, text):
        self.total, self.front = len(text), whole_characters(text)
        self.text = text[: self.front]
        self.at = 0

    def look(self):
        """The next byte; the end of what can be read is a refusal there."""
        if self.at >= len(self.text):
            raise form(self.front)
        return self.text[self.at]

    def take(self):
        byte = self.look()
        self.at += 1
        return byte

    def due(self, wanted):
        for byte in wanted:
            if self.look() != byte:
                raise form(self.at)
            self.at += 1

    def skip_space(self):
        while self.at < len(self.text) and self.text[self.at] in SPACE:
            self.at += 1

    def name(self):
        start = self.at
        if not begins_name(self.look()):
            raise form(self.at)
        while goes_on_name(self.look()):
            self.at += 1
        return self.text[start : self.at].decode()

    def until(self, mark):
        found = self.text.find(mark, self.at)
        if found < 0:
            raise form(self.front)
        self.at = found + len(mark)

    def aside(self):
        """What follows a `<` that begins no tag: a comment or an instruction."""
        if self.take() == ord("?"):
            self.until(b"?>")
        else:
            self.due(b"--")
            self.until(b"-->")

    def reference(self):
        """The character that a reference means, by what follows its `&`."""
        if self.look() != ord("#"):
            names = {b"amp;": "&", b"lt;": "<", b"gt;": ">", b"quot;": '"', b"apos;": "'"}
            read = b""
            while read not in names:
                read += bytes([self.look()])
                if not any(name.startswith(read) for name in names):
                    raise form(self.at)
                self.at += 1
            return names[read]
        self.at += 1
        base, digits = 10, b"0123456789"
        if self.look() == ord("x"):
            self.at += 1
            base, digits = 16, b"0123456789abcdefABCDEF"
        number, count = 0, 0
        while self.look() in digits:
            number = number * base + int(chr(self.look()), base)
            if number > 0x10FFFF:
                raise form(self.at)
            self.at, count = self.at + 1, count + 1
        if self.look() != ord(";") or count == 0 or 0xD800 <= number <= 0xDFFF:
            raise form(self.at)
        self.at += 1
        return chr(number)

    def words(self, end):
        """Text up to a byte that ends it, unescaped."""
        parts, run = [], bytearray()

        def close():
            parts.append(run.decode().replace("\r\n", "\n").replace("\r", "\n"))
            run.clear()

        while self.look() not in end:
            byte = self.look()
            if byte == ord("&"):
                close()
                self.at += 1
                parts.append(self.reference())
            elif byte == ord("<") or not is_character(byte):
                raise form(self.at)
            else:
                run.append(byte)
                self.at += 1
        close()
        return "".join(parts)

    def attributes(self):
        """The attributes of a start tag, the last of a name standing, and whether the tag is a whole element."""
        found = {}
        while True:
            spaced = self.look() in SPACE
            self.skip_space()
            if self.look() == ord(">"):
                self.at += 1
                return found, False
            if self.look() == ord("/"):
                self.at += 1
                self.due(b">")
                return found, True
            if not spaced:
                raise form(self.at)
            name = self.name()
            self.skip_space()
            self.due(b"=")
            self.skip_space()
            quote = self.look()
            if quote not in b"\"'":
                raise form(self.at)
            self.at += 1
            found[name] = self.words(bytes([quote]))
            self.at += 1

    def round_the_element(self):
        """What may come before and after the one element, up to a tag's `<` or the end."""
        while True:
            self.skip_space()
            if self.at >= len(self.text):
                return
            if self.look() != ord("<"):
                raise form(self.at)
            if self.text[self.at + 1 : self.at + 2] not in (b"!", b"?"):
                return
            self.at += 1
            self.aside()

    def pieces(self):
        if self.text[:3] == b"\xef\xbb\xbf":
            self.at = 3
        elif self.text and b"\xef\xbb\xbf".startswith(self.text):
            raise form(self.front)
        self.round_the_element()
        place = self.at
        self.due(b"<")
        yield from self.element(place)
        self.round_the_element()
        if self.at < self.front:
            # Behind its `<` a comment could still begin.
            raise form(self.at + 1)
        if self.front < self.total:
            raise form(self.front)

    def element(self, place):
        """The pieces of an element after its `<`; elements within it are on a list, not on Python's stack."""
        names = []
        while True:
            name = self.name()
            attributes, whole = self.attributes()
            if len(names) == LIMIT_OPEN:
                raise Refused(8, "limit passed")
            yield "start", name, attributes, place
            names.append(name)
            if whole:
                names.pop()
                yield "stop", None, None, None
            while names:
                if self.look() != ord("<"):
                    yield "words", self.words(b"<"), None, None
                    continue
                place = self.at
                self.at += 1
                if self.look() in b"!?":
                    self.aside()
                elif self.look() == ord("/"):
                    self.at += 1
                    self.due(names[-1].encode())
                    self.skip_space()
                    self.due(b">")
                    names.pop()
                    yield "stop", None, None, None
                else:
                    break
            else:
                return


# ---- values: each gives None for a text that it does not say


def base64_bytes(text):
    """Base64 with its padding, in the standard alphabet, with no bit left over."""
    if not re.fullmatch(r"(?:[A-Za-z0-9+/]{4})*(?:[A-Za-z0-9+/]{2}==|[A-Za-z0-9+/]{3}=)?", text):
        return None
    read = base64.b64decode(text)
    return read if base64.b64encode(read).decode() == text else None


def sized(count):
    def rule(text):
        read = base64_bytes(text)
        return read if read is not None and len(read) == count else None

    return rule


def number(least, most):
    def rule(text):
        if not re.fullmatch(r"-?[0-9]+", text):
            return None
        return int(text) if least <= int(text) <= most else None

    return rule


def boolean(text):
    return {"true": True, "false": False}.get(text.lower() if text.isascii() else text)


def choice(text):
    return "inherit" if text.isascii() and text.lower() == "null" else boolean(text)


def time(text):
    if re.fullmatch(r"[0-9]{4}-[0-9]{2}-[0-9]{2}T[0-9]{2}:[0-9]{2}:[0-9]{2}Z", text):
        try:
            return datetime.datetime.strptime(text, "%Y-%m-%dT%H:%M:%SZ")
        except ValueError:
            return None
    read = sized(8)(text)
    if read is None:
        return None
    seconds = int.from_bytes(read, "little", signed=True)
    return seconds if 0 <= seconds <= LAST_SECOND else None


def plain_text(text):
    return text


plain_text.raw = True
uuid = sized(16)
u32, u64 = number(0, 2**32 - 1), number(0, 2**64 - 1)
i32, i64 = number(-(2**31), 2**31 - 1), number(-(2**63), 2**63 - 1)


def node_uuid(text):
    return uuid(text)


node_uuid.needed = True

# ---- containers: for each child its rule, or the table of its own children; ONE that may occur once, MANY that may
# occur often, and LAST of which the last counts


def last(rule):
    return "last", rule


def many(table):
    return "many", table


def once(table):
    return "once", table


TIMES = {name: last(time) for name in ("LastModificationTime", "CreationTime", "LastAccessTime", "ExpiryTime", "LocationChanged")}
TIMES |= {"Expires": last(boolean), "UsageCount": last(u64)}
CUSTOM_DATA = {"Item": many({"Key": last(plain_text), "Value": last(plain_text), "LastModificationTime": last(time)})}
STRING = {"Key": last(plain_text), "Value": last(plain_text)}
ASSOCIATION = {"Window": last(plain_text), "KeystrokeSequence": last(plain_text)}
AUTO_TYPE = {"Enabled": last(boolean), "DataTransferObfuscation": last(u32), "DefaultSequence": last(plain_text),
             "Association": many(ASSOCIATION)}
ATTACHMENT = {"Key": last(plain_text), "Value": last("attached")}
VERSION = {"IconID": last(u32), "CustomIconUUID": last(uuid), "ForegroundColor": last(plain_text),
           "BackgroundColor": last(plain_text), "OverrideURL": last(plain_text), "Tags": last(plain_text),
           "Times": last(TIMES), "String": many(STRING), "Binary": many(ATTACHMENT), "AutoType": last(AUTO_TYPE),
           "CustomData": last(CUSTOM_DATA), "QualityCheck": last(boolean), "PreviousParentGroup": last(uuid)}
HISTORY_ITEM = VERSION | {"UUID": last(uuid)}
ENTRY = VERSION | {"UUID": last(node_uuid), "History": last({"Entry": many(HISTORY_ITEM)})}
ICON = {"UUID": last(uuid), "Data": last(base64_bytes), "Name": last(plain_text), "LastModificationTime": last(time)}
GROUP = {"UUID": last(node_uuid), "Name": last(plain_text), "Notes": last(plain_text), "Tags": last(plain_text), "IconID": last(u32),
         "CustomIconUUID": last(uuid), "Times": last(TIMES), "IsExpanded": last(boolean),
         "DefaultAutoTypeSequence": last(plain_text), "EnableAutoType": last(choice), "EnableSearching": last(choice),
         "LastTopVisibleEntry": last(uuid), "PreviousParentGroup": last(uuid), "CustomData": last(CUSTOM_DATA),
         "Entry": many(ENTRY)}
GROUP["Group"] = many(GROUP)
PROTECTION = {f"Protect{name}": last(boolean) for name in ("Title", "UserName", "Password", "URL", "Notes")}
META = {name: last(plain_text) for name in ("Generator", "DatabaseName", "DatabaseDescription", "DefaultUserName", "Color")}
META |= {name: last(time) for name in ("SettingsChanged", "DatabaseNameChanged", "DatabaseDescriptionChanged",
                                       "DefaultUserNameChanged", "MasterKeyChanged", "RecycleBinChanged",
                                       "EntryTemplatesGroupChanged")}
META |= {name: last(uuid) for name in ("RecycleBinUUID", "EntryTemplatesGroup", "LastSelectedGroup", "LastTopVisibleGroup")}
META |= {"HeaderHash": last(sized(32)), "MaintenanceHistoryDays": last(u32), "MasterKeyChangeRec": last(i64),
         "MasterKeyChangeForce": last(i64), "MasterKeyChangeForceOnce": last(boolean), "MemoryProtection": last(PROTECTION),
         "RecycleBinEnabled": last(boolean), "CustomIcons": last({"Icon": many(ICON)}),
         "HistoryMaxItems": last(i32), "HistoryMaxSize": last(i64), "Binaries": last({"Binary": many("pooled")}),
         "CustomData": last(CUSTOM_DATA)}
TOMBS = {"DeletedObject": many({"UUID": last(uuid), "DeletionTime": last(time)})}
ROOT = {"Group": once(GROUP), "DeletedObjects": last(TOMBS)}
FILE = {"Meta": last(META), "Root": once(ROOT)}
TEXT = {"KeePassFile": last(FILE)}
NODES = (id(GROUP), id(ENTRY), id(HISTORY_ITEM))


def is_true(attributes, name):
    return attributes.get(name, "").lower() == "true"


class Element:
    """What is kept of an element: its place, its attributes, its value or its children by name."""

    def __init__(self, place, attributes):
        self.place, self.attributes, self.text, self.value, self.children = place, attributes, "", None, {}

    def one(self, name):
        return self.children.get(name, [None])[-1]

    def all(self, name):
        return self.children.get(name, [])


class Reader:
    def __init__(self, text):
        self.pieces = Markup(text).pieces()
        self.nodes = 0

    def read(self):
        outermost = Element(0, {})
        self.inside(outermost, TEXT, 0)
        return outermost

    def inside(self, element, table, level):
        """The pieces up to the element's end."""
        for kind, words, attributes, place in self.pieces:
            if kind == "stop":
                return
            if kind == "words":
                element.text += words
            else:
                self.child(element, table, level, words, Element(place, attributes))

    def child(self, parent, table, level, name, element):
        how, rule = table.get(name, (None, None))
        inner = rule if isinstance(rule, dict) else {}
        level += rule is GROUP
        if level > LIMIT_LEVELS:
            raise Refused(8, "limit passed")
        self.inside(element, inner, level)
        second = how == "once" and name in parent.children
        self.end(element, rule, second)
        if how is not None:
            parent.children.setdefault(name, []).append(element)

    def end(self, element, rule, second):
        """All that is reached at an element's end, in the order of the list of refusals."""
        if second or is_true(element.attributes, "Protected") or not self.valued(element, rule):
            raise bad_value(element.place)
        shared = rule == "attached" and "Ref" in element.attributes
        if rule in ("pooled", "attached") and not shared and is_true(element.attributes, "Compressed"):
            raise Refused(5, "compressed")
        if id(rule) in NODES:
            self.nodes += 1
            if self.nodes > LIMIT_NODES:
                raise Refused(8, "limit passed")
        if rule is GROUP or rule is ENTRY:
            own = element.one("UUID")
            if own is not None and own.value == NIL:
                raise Refused(4, f"nil id at {element.place}")
            if own is None:
                raise Refused(4, f"missing element at {element.place}")

    def valued(self, element, rule):
        """Reads the value of an element by its rule; False where the text does not say one."""
        if rule is None or isinstance(rule, dict):
            return True
        attribute = {"pooled": "ID", "attached": "Ref"}.get(rule) if isinstance(rule, str) else None
        if attribute is not None and (rule == "pooled" or attribute in element.attributes):
            element.number = u64(element.attributes.get(attribute, ""))
            if element.number is None:
                return False
        if rule == "attached" and "Ref" in element.attributes:
            return True
        if getattr(rule, "raw", False):
            element.value = element.text
            return True
        text = element.text.strip(" \t\n\r")
        if text == "" and not getattr(rule, "needed", False):
            return True
        element.value = base64_bytes(text) if isinstance(rule, str) else rule(text)
        return element.value is not None


# ---- what is tried after the end of the text


def field(version, key):
    """The value of a field, of which the last counts; empty without one."""
    value = ""
    for string in version.all("String"):
        name = string.one("Key").text if string.one("Key") else ""
        if name == key:
            value = string.one("Value").text if string.one("Value") else ""
    return value


def references(version):
    """The numbers to which the attachments that count refer, with their places."""
    standing = {}
    for attachment in version.all("Binary"):
        key = attachment.one("Key")
        standing[key.text if key else ""] = attachment.one("Value")
    return [(value.place, value.number) for value in standing.values() if value and "Ref" in value.attributes]


def all_groups(group):
    found, left = [], [group]
    while left:
        one = left.pop()
        found.append(one)
        left += one.all("Group")
    return found


def listing(text):
    outermost = Reader(text).read()
    file = outermost.one("KeePassFile")
    root = file and file.one("Root")
    group = root and root.one("Group")
    if group is None:
        raise Refused(4, "missing element at 0")
    groups = all_groups(group)
    entries = [entry for one in groups for entry in one.all("Entry")]
    ids = sorted(node.one("UUID").value for node in groups + entries)
    twice = [one for one, other in zip(ids, ids[1:]) if one == other]
    if twice:
        spelled = re.sub(r"^(.{8})(.{4})(.{4})(.{4})(.{12})$", r"\1-\2-\3-\4-\5", twice[0].hex())
        raise Refused(4, f"duplicate id {spelled}")
    meta = file.one("Meta")
    binaries = meta and meta.one("Binaries")
    pool = {binary.number for binary in binaries.all("Binary")} if binaries else set()
    versions = entries + [item for entry in entries if entry.one("History") for item in entry.one("History").all("Entry")]
    missing = sorted(found for version in versions for found in references(version) if found[1] not in pool)
    if missing:
        raise Refused(4, f"no binary {missing[0][1]}")
    names = [field(entry, "Title") for entry in group.all("Entry")]
    names += [(one.one("Name").text if one.one("Name") else "") + "/" for one in group.all("Group")]
    return "".join(name + "\n" for name in names)


def answer(text):
    """The status and the text for a document's bytes."""
    if len(text) > LIMIT_FILE:
        return 8, "limit passed"
    try:
        return 0, listing(text)
    except Refused as refused:
        return refused.status, refused.text


# ---- the rows


def row_document(frames, where, fragment):
    """The document of a row, as bytes, and the place of its mark."""
    whole = frames[where].replace("…", fragment)
    for number in range(10):
        whole = whole.replace(f"@{number}", base64.b64encode(bytes([number] * 16)).decode())
    pieces = [escaped.encode().decode("unicode_escape").encode("latin-1") for escaped in whole.split("¦")]
    return b"".join(pieces), len(pieces[0])


def check_rows():
    folder = os.path.dirname(os.path.abspath(__file__))
    frames, count, apart = {}, 0, 0
    for line in open(os.path.join(folder, "rows"), encoding="utf-8"):
        line = line.rstrip("\n")
        if line == "" or line.startswith("#"):
            continue
        columns = line.split("\t")
        if columns[0] == "frame":
            frames[columns[1]] = columns[2]
            continue
        name, status, said, where, fragment = columns
        document, place = row_document(frames, where, fragment)
        said = said.replace("¦", str(place)).encode().decode("unicode_escape").encode("latin-1").decode()
        count += 1
        if answer(document) != (int(status), said):
            apart += 1
            print(f"{name}: the row says {status} {said!r}, the reader {answer(document)}")
    print(f"{count} rows, {apart} read otherwise")
    return 1 if apart else 0


def check_made(folder):
    count, apart = 0, 0
    for line in open(os.path.join(folder, "list"), encoding="utf-8"):
        number, status, name = line.rstrip("\n").split("\t")
        with open(os.path.join(folder, number + ".xml"), "rb") as file:
            found = answer(file.read())
        with open(os.path.join(folder, number + ".want"), encoding="utf-8") as file:
            said = file.read()
        count += 1
        if found != (int(status), said):
            apart += 1
            print(f"{number}, {name}: the list says {status} {said[:80]!r}, the reader {found[0]} {found[1][:80]!r}")
    print(f"{count} documents, {apart} read otherwise")
    return 1 if apart else 0


def main(words):
    if len(words) == 2 and words[0] == "--made":
        return check_made(words[1])
    if words == ["--rows"]:
        return check_rows()
    if len(words) != 3 or words[:2] != ["ls", "--plain"]:
        print("keepass: words: wrong words", file=sys.stderr)
        return 1
    with open(words[2], "rb") as file:
        status, text = answer(file.read())
    if status == 0:
        sys.stdout.buffer.write(text.encode())
    else:
        print(f"keepass: {words[2]}: {text}", file=sys.stderr)
    return status


if __name__ == "__main__":
    sys.exit(main(sys.argv[1:]))
