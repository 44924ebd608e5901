#!/usr/bin/env python3
"""A slow model of `keepass mv`, `rm`, `mkdir`, `rmdir`, `edit` and `ls`, written from the rules alone: what a call prints or refuses, and every
byte of the document that it writes. Documents are read by the reader of tests/damaged, in the form of tests/writing/compare.

    model.py                   tries the model on known texts: their lengths and SHA-256 are from another writer of the same rules
    model.py WORD...           does what the program does with these words (--plain alone, and `ls`), so that the tests can be tried on it

A document is the dictionary that tests/writing/compare makes of it. A refusal is raised, and then the document is as it was."""
import base64, copy, datetime, hashlib, os, sys, time, types

here = os.path.dirname(os.path.realpath(__file__))


def loaded(*path):
    """A program of the tests as a module: their names have no ending by which Python would find them."""
    module = types.ModuleType(path[-1])
    module.__file__ = os.path.join(here, "..", *path)
    with open(module.__file__, encoding="utf-8") as file:
        exec(compile(file.read(), module.__file__, "exec"), module.__dict__)
    return module


reading = loaded("writing", "compare")
rules = reading.rules
NIL, LEVELS, LAST = bytes(16), rules.LIMIT_LEVELS, rules.LAST_SECOND
Refused = rules.Refused


# ---- finding


def title(entry):
    return entry["String"].get("Title", {"Value": ""})["Value"]


class Found:
    """A node, the group that it is in, and the level of that group."""

    def __init__(self, node, path, parent, level):
        self.node, self.path, self.parent, self.level = node, path, parent, level


def walk(group, path="", parent=None, level=1):
    """The groups and the entries below a group, in document order, each with a mark: whether it is an entry."""
    yield False, Found(group, path, parent, level)
    front = "" if parent is None else path + "/"
    for entry in group["Entry"]:
        yield True, Found(entry, front + title(entry), group, level)
    for below in group["Group"]:
        yield from walk(below, front + below["Name"], group, level + 1)


def hyphenated(identity):
    text = identity.hex()
    return "-".join((text[:8], text[8:12], text[12:16], text[16:20], text[20:]))


def braced(identity):
    """The text by which an id names a node."""
    return f"{{{hyphenated(identity)}}}"


def first(document, of_entry, holds):
    """The first node of a kind of which something holds; or None."""
    return next((found for is_entry, found in walk(document["Root"]) if is_entry == of_entry and holds(found)), None)


def by_id(document, of_entry, text):
    """The node of a kind whose id a text is in braces; or None."""
    return first(document, of_entry, lambda found: braced(found.node["UUID"]) == text)


def there(found):
    refuse_if(found is None, 2, "not found")
    return found


def find_entry(document, text):
    """The entry whose id a text is, or else the first one whose path it is."""
    return there(by_id(document, True, text) or first(document, True, lambda found: text in (found.path, "/" + found.path)))


def trimmed(text):
    """A text without one slash at its start and one at its end."""
    text = text[1:] if text.startswith("/") else text
    return text[:-1] if text.endswith("/") else text


def group_at(document, text):
    """The first group whose path a text is, whatever ids there are."""
    return there(first(document, False, lambda found: found.path == trimmed(text)))


def find_group(document, text):
    return by_id(document, False, trimmed(text)) or group_at(document, text)


def groups_in(group):
    """The ids of a group and of all groups below it."""
    return [found.node["UUID"] for is_entry, found in walk(group) if not is_entry]


def height(group):
    return 1 + max(map(height, group["Group"]), default=0)


# ---- changes


def refuse_if(holds, status, text):
    if holds:
        raise Refused(status, text)


def time_after(now, before):
    """The later of now and a second after another time, which must be in the calendar."""
    refuse_if(max(now, before + 1) > LAST, 8, "limit passed")
    return max(now, before + 1)


def refuse_taken(document, identity):
    ids = [found.node["UUID"] for _, found in walk(document["Root"])]
    refuse_if(identity in [NIL, *ids, *document["DeletedObjects"]], 2, f"id taken {hyphenated(identity)}")


def new_group(identity, name, now):
    times = dict.fromkeys(("LastModificationTime", "CreationTime", "LastAccessTime", "ExpiryTime", "LocationChanged"), now)
    return {"UUID": identity, "Name": name, "Notes": "", "Tags": "", "IconID": 48, "CustomIconUUID": None,
            "Times": times | {"Expires": False, "UsageCount": 0}, "IsExpanded": True, "DefaultAutoTypeSequence": "",
            "EnableAutoType": "inherit", "EnableSearching": "inherit", "LastTopVisibleEntry": NIL, "PreviousParentGroup": NIL,
            "CustomData": {"Item": {}}, "Entry": [], "Group": []}


def without(nodes, node):
    """Takes this very node out of a list."""
    del nodes[next(number for number, one in enumerate(nodes) if one is node)]


def move(found, kind, goal, now):
    """The node becomes the last of the group, placed now, and in the group that it left before."""
    placed = time_after(now, found.node["Times"]["LocationChanged"])
    found.node["Times"]["LocationChanged"], found.node["PreviousParentGroup"] = placed, found.parent["UUID"]
    without(found.parent[kind], found.node)
    goal[kind].append(found.node)


def move_entry(document, path, goal, now):
    found, group = find_entry(document, path), find_group(document, goal)
    refuse_if(found.parent is group.node, 2, "already in that group")
    move(found, "Entry", group.node, now)
    return f"entry {title(found.node)}"


def move_group(document, path, goal, now):
    found, group = find_group(document, path), find_group(document, goal)
    refuse_if(found.parent is group.node, 2, "already in that group")
    refuse_if(found.parent is None, 2, "the root stays")
    refuse_if(group.node["UUID"] in groups_in(found.node), 2, f"{hyphenated(found.node['UUID'])} into itself")
    refuse_if(group.level + height(found.node) > LEVELS, 8, "limit passed")
    move(found, "Group", group.node, now)
    return f"group {found.node['Name']}"


def make_group(document, path, identity, now):
    front, _, name = trimmed(path).rpartition("/")
    parent = group_at(document, front)
    new = name if parent.parent is None else f"{parent.path}/{name}"
    taken = [found.path for is_entry, found in walk(document["Root"]) if not is_entry]
    refuse_if(new in taken or trimmed(new) == "", 2, "already there")
    refuse_if(parent.level + 1 > LEVELS, 8, "limit passed")
    refuse_taken(document, identity)
    parent.node["Group"].append(new_group(identity, name, now))
    return name


def bin_of(document):
    """The bin, if recycling is enabled and its id names a group."""
    named = document["Meta"]["RecycleBinUUID"]
    return next((found for is_entry, found in walk(document["Root"]) if not is_entry and found.node["UUID"] == named), None)


def needs_bin(document):
    return document["Meta"]["RecycleBinEnabled"] and bin_of(document) is None


def made_bin(document, identity, now):
    """Makes the bin, as the last group of the root."""
    refuse_taken(document, identity)
    changed = time_after(now, document["Meta"]["RecycleBinChanged"])
    made = new_group(identity, "Recycle Bin", now) | {"IconID": 43, "EnableAutoType": False, "EnableSearching": False}
    document["Root"]["Group"].append(made)
    document["Meta"] |= {"RecycleBinUUID": identity, "RecycleBinChanged": changed}
    return made


def stamp(node):
    """The latest change of a node, of all its versions where it is an entry."""
    versions = [node, *node["History"]["Entry"]] if "History" in node else [node]
    return max(version["Times"]["LastModificationTime"] for version in versions)


def remove(document, found, kind, identity, now):
    """Puts a node into the bin, or deletes it: True where it went into the bin."""
    old = bin_of(document)
    in_bin = old is not None and (found.node if kind == "Group" else found.parent)["UUID"] in groups_in(old.node)
    if document["Meta"]["RecycleBinEnabled"] and not in_bin:
        if kind == "Group":
            refuse_if(document["Meta"]["RecycleBinUUID"] in groups_in(found.node), 2, f"{hyphenated(found.node['UUID'])} into itself")
            refuse_if((old.level if old else 2) + height(found.node) > LEVELS, 8, "limit passed")
        move(found, kind, old.node if old else made_bin(document, identity, now), now)
        return True
    nodes = [below.node for _, below in walk(found.node)] if kind == "Group" else [found.node]
    document["DeletedObjects"] |= {node["UUID"]: max(now, stamp(node)) for node in nodes}
    without(found.parent[kind], found.node)
    return False


def remove_entry(document, path, identity, now):
    found = find_entry(document, path)
    return remove(document, found, "Entry", identity, now), title(found.node)


def remove_group(document, path, identity, now):
    found = find_group(document, path)
    refuse_if(found.parent is None, 2, "the root stays")
    return remove(document, found, "Group", identity, now), found.node["Name"]


def edit_entry(document, path, values, now):
    """Makes another version of an entry, with these values by their keys; the version that was current is the last of the history. A field that
    is new is hidden as the database says; `otp` is hidden whatever it was, and an empty text takes it away. The history must be below its limits."""
    entry = find_entry(document, path).node
    history = entry["History"]["Entry"]
    now = time_after(now, max(version["Times"]["LastModificationTime"] for version in [entry, *history]))
    history.append(copy.deepcopy({key: part for key, part in entry.items() if key != "History"}))
    for key, value in values.items():
        hidden = key == "otp" or document["Meta"]["MemoryProtection"][f"Protect{key}"]
        if key in entry["String"] and key != "otp":
            hidden = entry["String"][key]["hidden"]
        entry["String"][key] = {"Key": key, "Value": value, "hidden": hidden}
    if values.get("otp") == "":
        del entry["String"]["otp"]
    entry["Times"] |= {"LastModificationTime": now, "LastAccessTime": now}
    return title(entry)


def changed(document, command, positions, identity, now):
    """The document after a command, and what the command reports. The document that is given is left as it was."""
    document = copy.deepcopy(document)
    refuse_if(now > LAST, 8, "limit passed")
    if command == "mv":
        node, goal = positions
        moved = (move_group if node.endswith("/") else move_entry)(document, node, goal, now)
        return document, f"Successfully moved {moved} to group {goal}.\n"
    if command == "mkdir":
        return document, f"Successfully added group {make_group(document, *positions, identity, now)}.\n"
    recycled, name = (remove_entry if command == "rm" else remove_group)(document, *positions, identity, now)
    return document, f"Successfully {'recycled' if recycled else 'deleted'} {'entry' if command == 'rm' else 'group'} {name}.\n"


def listed(document, recursive=False, flat=False, text=None, ids=False):
    """What `ls` prints, with each name after its node's id where that is asked for."""
    def lines(group, level, path):
        front = path if flat else "  " * level
        for entry in group["Entry"]:
            yield front + named(entry) + title(entry)
        for below in group["Group"]:
            yield front + named(below) + below["Name"] + "/"
            if recursive:
                yield from lines(below, level + 1, f"{path}{below['Name']}/")

    def named(node):
        return braced(node["UUID"]) + " " if ids else ""

    group = document["Root"] if text is None else find_group(document, text).node
    return "".join(line + "\n" for line in lines(group, 0, ""))


# ---- writing


def in_order(parts):
    """The parts of a dictionary by the bytes of their keys."""
    return [parts[key] for key in sorted(parts, key=lambda key: key if isinstance(key, bytes) else key.encode())]


def pool_of(document):
    """The binaries of attachments in the order in which they are first referred to, each once."""
    found = {}
    for is_entry, node in walk(document["Root"]):
        if is_entry:
            for version in [node.node, *node.node["History"]["Entry"]]:
                for attachment in in_order(version["Binary"]):
                    found.setdefault(attachment["Value"], len(found))
    return found


class Writer:
    """Writes a document by itself, or, where there is a stream, as a file of KDBX 4 holds it, or, with the hash of a header, one of 3.1."""

    def __init__(self, document, stream=None, header_hash=None):
        self.header_hash = header_hash
        self.stream, self.pool, self.parts = stream, pool_of(document), ['<?xml version="1.0" encoding="utf-8"?>\n']
        with_parts = self.open("KeePassFile")
        self.meta(document["Meta"])
        root = self.open("Root")
        self.group(document["Root"])
        tombs = self.open("DeletedObjects")
        for identity in sorted(document["DeletedObjects"]):
            self.values("DeletedObject", UUID=identity, DeletionTime=Time(document["DeletedObjects"][identity]))
        self.close(tombs, root, with_parts)
        self.text = "".join(self.parts).encode()

    def open(self, name):
        self.parts.append(f"<{name}>")
        return name

    def close(self, *names):
        self.parts += [f"</{name}>" for name in names]

    def spelled(self, value):
        if isinstance(value, Time):
            return self.time(value)
        if value == "inherit":
            return "null"
        if isinstance(value, bytes):
            return base64.b64encode(value).decode()
        return escaped(value) if isinstance(value, str) else str(value)

    def time(self, value):
        if self.stream is not None and self.header_hash is None:
            return base64.b64encode(value.to_bytes(8, "little")).decode()
        return (reading.YEAR_1 + datetime.timedelta(seconds=value)).isoformat() + "Z"

    def value(self, name, value, attributes=""):
        self.parts.append(f"<{name}{attributes}>{self.spelled(value)}</{name}>")

    def text_value(self, name, value):
        """A text that may be `null` by itself."""
        self.parts.append(f"<{name}>{escaped(value)}</{name}>")

    def values(self, name, **values):
        self.open(name)
        for key, value in values.items():
            (self.text_value if isinstance(value, str) else self.value)(key, value)
        self.close(name)

    def hidden_value(self, text):
        if self.stream is None:
            self.parts.append(f'<Value ProtectInMemory="True">{escaped(text)}</Value>')
        else:
            hidden = self.stream(text.encode())
            self.parts.append(f'<Value Protected="True">{base64.b64encode(hidden).decode()}</Value>')

    def meta(self, meta):
        self.open("Meta")
        self.value("Generator", "vaultmerge")
        if self.header_hash is not None:
            self.value("HeaderHash", self.header_hash)
        if self.header_hash is None or meta["SettingsChanged"]:
            self.value("SettingsChanged", Time(meta["SettingsChanged"]))
        for name in ("DatabaseName", "DatabaseDescription", "DefaultUserName"):
            self.text_value(name, meta[name])
            self.value(name + "Changed", Time(meta[name + "Changed"]))
        self.value("MaintenanceHistoryDays", meta["MaintenanceHistoryDays"])
        self.text_value("Color", meta["Color"])
        self.value("MasterKeyChanged", Time(meta["MasterKeyChanged"]))
        self.value("MasterKeyChangeRec", meta["MasterKeyChangeRec"])
        self.value("MasterKeyChangeForce", meta["MasterKeyChangeForce"])
        if meta["MasterKeyChangeForceOnce"]:
            self.value("MasterKeyChangeForceOnce", True)
        self.values("MemoryProtection", **{name: meta["MemoryProtection"][name] for name in rules.PROTECTION})
        self.icons(meta["CustomIcons"]["Icon"])
        for name, is_time in (("RecycleBinEnabled", 0), ("RecycleBinUUID", 0), ("RecycleBinChanged", 1), ("EntryTemplatesGroup", 0),
                              ("EntryTemplatesGroupChanged", 1), ("LastSelectedGroup", 0), ("LastTopVisibleGroup", 0),
                              ("HistoryMaxItems", 0), ("HistoryMaxSize", 0)):
            self.value(name, Time(meta[name]) if is_time else meta[name])
        if self.stream is None or self.header_hash is not None:
            self.binaries()
        self.open("CustomData")
        self.items(meta["CustomData"])
        self.close("CustomData", "Meta")

    def icons(self, icons):
        self.open("CustomIcons")
        for icon in in_order(icons):
            self.open("Icon")
            self.value("UUID", icon["UUID"])
            self.value("Data", icon["Data"])
            if icon["Name"]:
                self.text_value("Name", icon["Name"])
            self.changed_time(icon)
            self.close("Icon")
        self.close("CustomIcons")

    def changed_time(self, part):
        if part["LastModificationTime"]:
            self.value("LastModificationTime", Time(part["LastModificationTime"]))

    def binaries(self):
        self.open("Binaries")
        for (content, hidden), number in self.pool.items():
            mark = ' ProtectInMemory="True"' if self.stream is None else ' Protected="True"'
            if hidden and self.stream is not None:
                content = self.stream(content)
            self.value("Binary", content, f' ID="{number}"' + (mark if hidden else ""))
        self.close("Binaries")

    def items(self, custom_data):
        for item in in_order(custom_data["Item"]):
            self.open("Item")
            self.text_value("Key", item["Key"])
            self.text_value("Value", item["Value"])
            self.changed_time(item)
            self.close("Item")

    def custom_data(self, node):
        """The items of a node, if there are any."""
        if node["CustomData"]["Item"]:
            self.open("CustomData")
            self.items(node["CustomData"])
            self.close("CustomData")

    def icon(self, node):
        self.value("IconID", node["IconID"])
        if node["CustomIconUUID"] is not None:
            self.value("CustomIconUUID", node["CustomIconUUID"])

    def times(self, times, placed):
        self.open("Times")
        for name in ("LastModificationTime", "CreationTime", "LastAccessTime", "ExpiryTime"):
            self.value(name, Time(times[name]))
        self.value("Expires", times["Expires"])
        self.value("UsageCount", times["UsageCount"])
        self.value("LocationChanged", Time(placed))
        self.close("Times")

    def previous(self, identity):
        if identity != NIL:
            self.value("PreviousParentGroup", identity)

    def group(self, group):
        self.open("Group")
        self.value("UUID", group["UUID"])
        self.text_value("Name", group["Name"])
        self.text_value("Notes", group["Notes"])
        if group["Tags"]:
            self.text_value("Tags", group["Tags"])
        self.icon(group)
        self.times(group["Times"], group["Times"]["LocationChanged"])
        self.value("IsExpanded", group["IsExpanded"])
        self.text_value("DefaultAutoTypeSequence", group["DefaultAutoTypeSequence"])
        self.value("EnableAutoType", group["EnableAutoType"])
        self.value("EnableSearching", group["EnableSearching"])
        self.value("LastTopVisibleEntry", group["LastTopVisibleEntry"])
        self.previous(group["PreviousParentGroup"])
        self.custom_data(group)
        for entry in group["Entry"]:
            self.entry(entry, entry)
        for below in group["Group"]:
            self.group(below)
        self.close("Group")

    def entry(self, version, entry):
        """A version of an entry, the current one or an older one: its id, place and previous parent are the entry's."""
        self.open("Entry")
        self.value("UUID", entry["UUID"])
        self.icon(version)
        for name in ("ForegroundColor", "BackgroundColor", "OverrideURL", "Tags"):
            self.text_value(name, version[name])
        if not version["QualityCheck"]:
            self.value("QualityCheck", False)
        self.previous(entry["PreviousParentGroup"])
        self.times(version["Times"], entry["Times"]["LocationChanged"])
        for string in in_order(version["String"]):
            self.open("String")
            self.text_value("Key", string["Key"])
            (self.hidden_value if string["hidden"] else lambda text: self.text_value("Value", text))(string["Value"])
            self.close("String")
        for attachment in in_order(version["Binary"]):
            self.open("Binary")
            self.text_value("Key", attachment["Key"])
            self.value("Value", "", f' Ref="{self.pool[attachment["Value"]]}"')
            self.close("Binary")
        self.auto_type(version["AutoType"])
        self.custom_data(version)
        if version is entry:
            self.open("History")
            for old in entry["History"]["Entry"]:
                self.entry(old, entry)
            self.close("History")
        self.close("Entry")

    def auto_type(self, auto_type):
        self.open("AutoType")
        self.value("Enabled", auto_type["Enabled"])
        self.value("DataTransferObfuscation", auto_type["DataTransferObfuscation"])
        self.text_value("DefaultSequence", auto_type["DefaultSequence"])
        for pair in auto_type["Association"]:
            self.values("Association", Window=pair["Window"], KeystrokeSequence=pair["KeystrokeSequence"])
        self.close("AutoType")


class Time(int):
    """A time, as against a number."""


ESCAPES = {"&": "&amp;", "<": "&lt;", ">": "&gt;", '"': "&quot;"} | {chr(c): f"&#x{c:X};" for c in range(32) if chr(c) not in "\t\n"}
ESCAPING = str.maketrans(ESCAPES)


def escaped(text):
    return text.translate(ESCAPING)


def spelled(document):
    """The document by itself."""
    return Writer(document).text


def needs_4_1(document):
    """Whether a document says something that KDBX 4.1 added."""
    nodes = [(is_entry, found.node) for is_entry, found in walk(document["Root"])]
    versions = [version for is_entry, node in nodes if is_entry for version in [node, *node["History"]["Entry"]]]
    custom = [part["CustomData"] for part in [document["Meta"], *versions, *(node for is_entry, node in nodes if not is_entry)]]
    items = [item for parts in custom for item in parts["Item"].values()]
    return (any(node["Tags"] for is_entry, node in nodes if not is_entry) or any(node["PreviousParentGroup"] != NIL for _, node in nodes)
            or any(not version["QualityCheck"] for version in versions) or any(item["LastModificationTime"] for item in items)
            or any(icon["Name"] or icon["LastModificationTime"] for icon in document["Meta"]["CustomIcons"]["Icon"].values()))


def needed_version(document):
    """The first version of KDBX in which a document can be, as a file has its number: items of groups and entries came with 4.0."""
    nodes = [(is_entry, found.node) for is_entry, found in walk(document["Root"])]
    parts = [part for is_entry, node in nodes for part in [node, *(node["History"]["Entry"] if is_entry else [])]]
    return 0x00040001 if needs_4_1(document) else 0x00040000 if any(part["CustomData"]["Item"] for part in parts) else 0x00030001


def new_id(drawn):
    """A new id of sixteen bytes of the dice."""
    return drawn[:6] + bytes([drawn[6] & 0x0F | 0x40, drawn[7], drawn[8] & 0x3F | 0x80]) + drawn[9:]


def seconds(unix):
    """A moment of the clock in seconds since the year 1."""
    return int(unix) + 62_135_596_800


# ---- known texts


def document_of(text):
    """What the text of a document says."""
    import tempfile
    with tempfile.NamedTemporaryFile() as file:
        file.write(text)
        file.flush()
        return reading.document(file.name)


def try_known():
    """Runs the calls of `known`, over dice that count from 0 to 255 and again, and compares each text with its length and SHA-256."""
    now, at, document, wrong, count = 63_839_664_000, 0, None, 0, 0
    for line in open(os.path.join(here, "known"), encoding="utf-8"):
        columns = line.rstrip("\n").split("\t")
        if columns[0] in ("", "#") or line.startswith("#"):
            continue
        if columns[0] == "document":
            document, at = document_of(whole(columns[1]).encode()), 0
            columns = columns[:1] + columns[2:]
        else:
            draws = columns[0] == "mkdir" or columns[0] in ("rm", "rmdir") and needs_bin(document)
            identity = new_id(bytes((at + place) % 256 for place in range(16))) if draws else None
            at += 16 if draws else 0
            length = next(place for place, word in enumerate(columns) if word.isdigit())
            document, _ = changed(document, columns[0], columns[1:length], identity, now)
            columns = columns[:1] + columns[length:]
        text = spelled(document)
        count += 1
        if (str(len(text)), hashlib.sha256(text).hexdigest()) != tuple(columns[1:3]):
            wrong += 1
            print(f"{line.rstrip()}: {len(text)} bytes, {hashlib.sha256(text).hexdigest()}")
    print(f"{count} texts, {wrong} otherwise")
    return 1 if wrong else 0


def whole(text):
    """A text of a table, in which @0 to @9 mean the base64 of an id of sixteen bytes of that value."""
    for number in range(10):
        text = text.replace(f"@{number}", base64.b64encode(bytes([number] * 16)).decode())
    return text


# ---- in the place of the program


# The letters by which long options are known here that are not their first one.
LETTERS = {"--details": "D"}


def parted(words):
    """The command, its options by their letters, and its positions, in words that are known to be right."""
    command, *rest = words
    end = rest.index("--") if "--" in rest else len(rest)
    options = [word for word in rest[:end] if word.startswith("-") and word != "-"]
    letters = "".join(LETTERS.get(word, word[2]) if word.startswith("--") else word[1:] for word in options)
    return command, letters, [word for word in rest[:end] if word not in options] + rest[end + 1 :]


def stand_in(words):
    """Does what the program does with these words, where they are right, and `--plain` is one of them."""
    command, options, (path, *positions) = parted(words)
    try:
        with open(path, "rb") as file:
            document = document_of(file.read())
        if command == "ls":
            sys.stdout.write(listed(document, "R" in options, "f" in options, *positions or [None], ids="i" in options))
            return 0
        document, report = changed(document, command, positions, new_id(os.urandom(16)), seconds(time.time()))
    except Refused as refused:
        sys.stderr.write(f"keepass: {path}: {refused.text}\n")
        return refused.status
    with open(path + ".part", "wb") as file:
        file.write(spelled(document))
    os.rename(path + ".part", path)
    sys.stdout.write("" if "q" in options else report)
    return 0


if __name__ == "__main__":
    sys.exit(stand_in(sys.argv[1:]) if sys.argv[1:] else try_known())
