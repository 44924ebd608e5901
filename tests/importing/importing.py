#!/usr/bin/env python3
"""A slow model of `keepass import`, written from the rules alone: the document that a source gives, and so every byte of the file that
`--plain` writes; or the refusal. Documents are those of the model of tests/moving, plain ones are read by the reader of tests/damaged,
and files of Password Safe by psafe.py.

    importing.py                   tries the model on known texts: their lengths and SHA-256 are from another writer of the same rules, that
                                   of the table with its entry's id and its root's time of change put in
    importing.py import WORD...    does what the program does with these words (those of --plain alone), so that the tests can be tried
                                   on it"""
import hashlib, itertools, json, math, os, re, sys, time, types, uuid

sys.dont_write_bytecode = True
here = os.path.dirname(os.path.realpath(__file__))
sys.path.insert(0, here)
import psafe

model = types.ModuleType("model")
model.__file__ = os.path.join(here, "..", "moving", "model.py")
exec(compile(open(model.__file__, encoding="utf-8").read(), model.__file__, "exec"), model.__dict__)

Refused, LAST, NIL = model.Refused, model.LAST, model.NIL
ROOT = uuid.UUID("6b5f0f1e-9d1c-4c3a-8f57-0d2c1e4a7b90")
ENTRIES = uuid.UUID("2f0c7a54-31b8-4e6d-9a02-c47d5e8190ab")
FORMATS = "xml", "psafe3", "csv", "bitwarden"
HIDDEN = "Password", "PasswordHistory", "otp"
UNIX = 62_135_596_800
sys.setrecursionlimit(10_000)  # a tree of the model is walked by recursion
FILE_LIMIT, LINE_LIMIT = 134_217_728, 4096


# ---- the tree


def named_id(space, name):
    """An id of version 5 (RFC 9562): of a name in a space."""
    name = name if isinstance(name, bytes) else name.encode()
    return uuid.UUID(bytes=hashlib.sha1(space.bytes + name).digest()[:16], version=5).bytes


def entry_name(names, fields, number):
    """The name of which the id of an entry is made that has none: its texts, each after its length, and its number among those that have
    the same texts."""
    texts = [text.encode() for text in ("/".join(names), fields["Title"], fields["UserName"], fields["URL"])]
    return b"".join(b"%d:%s" % (len(text), text) for text in texts) + b"%d" % number


def new_entry(identity, fields, created, modified, now, hidden=HIDDEN):
    """An entry of fields by their keys, of which these are hidden."""
    times = {"LastModificationTime": modified, "CreationTime": created, "LastAccessTime": now, "ExpiryTime": now, "LocationChanged": now}
    return {"UUID": identity, "IconID": 0, "CustomIconUUID": None, "ForegroundColor": "", "BackgroundColor": "", "OverrideURL": "",
            "Tags": "", "QualityCheck": True, "PreviousParentGroup": NIL, "Times": times | {"Expires": False, "UsageCount": 0},
            "String": {key: {"Key": key, "Value": text, "hidden": key in hidden} for key, text in fields.items()}, "Binary": {},
            "AutoType": {"Enabled": True, "DataTransferObfuscation": 0, "DefaultSequence": "", "Association": []},
            "CustomData": {"Item": {}}, "History": {"Entry": []}}


class Tree:
    """A new database, which is given entries."""

    def __init__(self, now):
        self.now = now
        self.document = model.document_of(b"<KeePassFile><Root><Group><UUID>AQEBAQEBAQEBAQEBAQEBAQ==</UUID></Group></Root></KeePassFile>")
        self.document["Root"] = model.new_group(ROOT.bytes, "Root", now)
        self.document["Root"]["Times"]["LastModificationTime"] = 0
        self.seen = {}

    def group(self, names):
        """The group to which names lead from the root; those that are not there are made, each as the last in its group."""
        group = self.document["Root"]
        for name in names:
            below = next((one for one in group["Group"] if one["Name"] == name), None)
            if below is None:
                below = model.new_group(named_id(uuid.UUID(bytes=group["UUID"]), name), name, self.now)
                group["Group"].append(below)
            group = below
        return group

    def add(self, names, identity, fields, created, modified, hidden=HIDDEN, earlier=()):
        """Adds an entry, which is counted; its id is that of its name where it has none. Earlier passwords, with their dates, are versions of
        its history."""
        texts = entry_name(names, fields, 0)
        self.seen[texts] = self.seen.get(texts, 0) + 1
        identity = identity or named_id(ENTRIES, entry_name(names, fields, self.seen[texts]))
        entry = new_entry(identity, fields, created, modified, self.now, hidden)
        for date, password in earlier:
            version = new_entry(identity, fields | {"Password": password}, created, date, self.now, hidden)
            del version["History"]
            entry["History"]["Entry"].append(version)
        self.group(names)["Entry"].append(entry)

    def whole(self):
        """The document, whose ids must differ, and whose groups may not be too deep. No recursion walks them, since there may be any number
        of levels."""
        ids, deepest, left = [], 0, [(self.document["Root"], 1)]
        while left:
            group, level = left.pop()
            ids += [group["UUID"], *(entry["UUID"] for entry in group["Entry"])]
            deepest = max(deepest, level)
            left += [(below, level + 1) for below in group["Group"]]
        ids.sort()
        twice = [one for one, other in zip(ids, ids[1:]) if one == other]
        model.refuse_if(twice, 4, f"duplicate id {uuid.UUID(bytes=twice[0]) if twice else ''}")
        model.refuse_if(deepest > model.LEVELS, 8, "limit passed")
        return self.document


# ---- Password Safe


def of_psafe(data, line, now):
    tree = Tree(now)
    records = psafe.records(data, line, LAST - UNIX)
    for number, record in enumerate(records, 1):
        model.refuse_if(dict(record).get(psafe.UUID) == NIL, 4, f"nil id at {number}")
    for number, record in enumerate(records, 1):
        last = dict(record)
        times = dict(one for one in record if one[0] in psafe.TIMES and len(one[1]) in (4, 5, 8))
        created, modified = (UNIX + int.from_bytes(times[kind], "little") if kind in times else now for kind in psafe.TIMES)
        kinds = {"Title": psafe.TITLE, "UserName": psafe.USER, "Password": psafe.PASSWORD, "URL": psafe.URL, "Notes": psafe.NOTES}
        fields = {key: last.get(kind, b"").decode() for key, kind in kinds.items()}
        if psafe.HISTORY in last:
            fields["PasswordHistory"] = last[psafe.HISTORY].decode()
        names = [name for name in last.get(psafe.GROUP, b"").decode().split(".") if name]
        tree.add(names, last.get(psafe.UUID), fields, created, modified)
    return tree.whole()


# ---- tables


def rows_of(text):
    """The rows of a table as lists of fields: a row ends with LF, CR or both, and a blank line is none. A quotation mark at the start of
    a field begins a quoted part, in which two of them are one; after the mark that ends it the field goes on as it is."""
    rows, row, field, quoted, started = [], [], [], False, False
    at = 0

    def end_row():
        nonlocal row, field, started
        if started:
            rows.append([*row, "".join(field)])
        row, field, started = [], [], False

    begins = True
    while at < len(text):
        sign = text[at]
        at += 1
        if quoted:
            if sign != '"':
                field.append(sign)
            elif text[at : at + 1] == '"':
                field.append('"')
                at += 1
            else:
                quoted = False
        elif sign in "\r\n":
            end_row()
            begins = True
        elif sign == ",":
            row.append("".join(field))
            field, started, begins = [], True, True
        elif sign == '"' and begins:
            quoted, started, begins = True, True, False
        else:
            field.append(sign)
            started, begins = True, False
    end_row()
    return rows


COLUMNS = {"Group": "group folder grouping", "Title": "title name account", "Username": "username user_name login_name login_username login",
           "Password": "password login_password", "URL": "url urls login_uri web_site website", "Notes": "notes note comments extra",
           "otp": "totp otpauth login_totp otp", "Last Modified": "last_modified", "Created": "created"}
MEANINGS = {name: meaning for meaning, names in COLUMNS.items() for name in names.split()}
MEANINGS |= {name.replace("_", " "): MEANINGS[name] for name in ("user_name", "login_name", "web_site", "last_modified")}
for name in "user_name", "login_name", "web_site", "last_modified":
    del MEANINGS[name]
SMALL = str.maketrans("ABCDEFGHIJKLMNOPQRSTUVWXYZ", "abcdefghijklmnopqrstuvwxyz")


def meaning(column):
    """What a column means by its name, if it means something."""
    return MEANINGS.get(column.strip().translate(SMALL))


def host(url):
    rest = url.partition("://")[2] if "://" in url else url
    return re.split("[/?#]", rest)[0].rpartition("@")[2].partition(":")[0]


def one_time(text):
    """The field of a one-time code, if there is one."""
    return {"otp": text if text.startswith("otpauth://") else "otpauth://totp/?secret=" + text} if text else {}


def iso(text):
    """The time that a text is, if it is one."""
    read = model.rules.time(text) if re.fullmatch(r"[0-9T:Z-]{20}", text) else None
    return None if read is None else model.reading.value("CreationTime", model.rules.time, None, types.SimpleNamespace(value=read))


def moment(text, now, number):
    """A time of a row, or now where it is empty."""
    if text == "":
        return now
    read = iso(text)
    model.refuse_if(read is None, 4, f"bad row {number}")
    return read


def columns_of(data):
    """The names of a table's columns, its other rows, and the place of the column of each meaning: of several the last."""
    head, *rows = rows_of(data.decode().removeprefix("\ufeff")) or [[]]
    return head, rows, {meaning(name): place for place, name in enumerate(head) if meaning(name)}


def passed_over(form, data):
    """The names of the columns of a source that are passed over."""
    head, _, places = columns_of(data) if form == "csv" else ([], [], {})
    return [name for place, name in enumerate(head) if place not in places.values()]


def of_table(data, line, now):
    try:
        head, rows, places = columns_of(data)
    except UnicodeDecodeError as error:
        raise Refused(4, f"not UTF-8 at {error.start}")
    model.refuse_if("Title" not in places and "URL" not in places, 4, "no Title column")
    tree = Tree(now)
    for number, row in enumerate(rows, 1):
        model.refuse_if(len(row) != len(head), 4, f"bad row {number}")
        said = {name: row[places[name]] if name in places else "" for name in COLUMNS}
        modified, created = moment(said["Last Modified"], now, number), moment(said["Created"], now, number)
        names = [name for name in said["Group"].split("/") if name]
        title = said["Title"] if "Title" in places else host(said["URL"])
        fields = {"Title": title, "UserName": said["Username"], "Password": said["Password"], "URL": said["URL"], "Notes": said["Notes"]}
        fields |= one_time(said["otp"])
        tree.add(names[names[:1] == ["Root"] :], None, fields, created, modified)
    return tree.whole()


# ---- Bitwarden

LEVELS_OF_JSON = 127
HYPHENATED = "-".join(f"[0-9A-Fa-f]{{{digits}}}" for digits in (8, 4, 4, 4, 12))
IDENTITY = re.compile(rf"(?:urn:uuid:)?{HYPHENATED}|\{{{HYPHENATED}\}}|[0-9A-Fa-f]{{32}}")


def number_of(text):
    """A number, which must be within the range of binary floats of 64 bits."""
    read = float(text)
    if math.isinf(read):
        raise ValueError
    return int(text) if re.fullmatch("-?[0-9]{1,19}", text) else read


def no_constant(text):
    raise ValueError


def levels_of(text):
    """How many lists and objects of a JSON text lie within one another."""
    level = most = 0
    for sign in re.findall(r"[\[{\]}]", re.sub(r'"(?:[^"\\]|\\.)*"', "", text, flags=re.DOTALL)):
        level += 1 if sign in "[{" else -1
        most = max(most, level)
    return most


def json_of(data):
    """The value of a JSON text. Neither one half of a letter of two halves is allowed in it, nor too many levels."""
    try:
        text = data.decode()
        if levels_of(text) > LEVELS_OF_JSON:
            raise ValueError
        value = json.loads(text, parse_int=number_of, parse_float=number_of, parse_constant=no_constant)
        json.dumps(value, ensure_ascii=False).encode()
    except (ValueError, RecursionError):
        raise Refused(4, "bad JSON")
    return value


def is_text(value):
    return isinstance(value, str)


def is_number(value):
    return isinstance(value, (int, float)) and not isinstance(value, bool)


def is_object(value):
    return isinstance(value, dict)


def date_of(text):
    """The time that a date is, if it is one; a fraction of a second is dropped."""
    parts = re.fullmatch(r"(.{19})(?:\.[0-9]+)?Z", text, re.ASCII | re.DOTALL)
    return iso(parts[1] + "Z") if parts else None


def is_date(value):
    return is_text(value) and date_of(value) is not None


def is_id(value):
    return is_text(value) and IDENTITY.fullmatch(value) is not None


def list_of(kind):
    return lambda value: isinstance(value, list) and all(map(kind, value))


def object_of(**kinds):
    """An object whose members of these names are of their kinds; each may be missing, or null."""
    return lambda value: is_object(value) and all(value.get(name) is None or kind(value[name]) for name, kind in kinds.items())


LOGIN = object_of(username=is_text, password=is_text, totp=is_text, uris=list_of(object_of(uri=is_text)))
CUSTOM = object_of(name=is_text, value=is_text, type=is_number)
EARLIER = object_of(lastUsedDate=is_date, password=is_text)


def checked(values, kind, text):
    """The values of a list that is a member, each of its kind; the first that is not is refused by its number from 1."""
    model.refuse_if(values is not None and not isinstance(values, list), 4, f"{text} 0")
    for number, value in enumerate(values or [], 1):
        model.refuse_if(not kind(value), 4, f"{text} {number}")
    return values or []


def said_of(item):
    """The fields of an item, each with whether it is hidden, under the keys that the item says."""
    login = item.get("login") or {}
    addresses = [address.get("uri") for address in login.get("uris") or []]
    yield from (("Title", item.get("name"), False), ("UserName", login.get("username"), False), ("Password", login.get("password"), True),
                ("URL", addresses[0] if addresses else "", False), ("Notes", item.get("notes"), False))
    yield from ((f"URL {number}", address, False) for number, address in enumerate(addresses[1:], 2))
    yield from ((key, text, True) for key, text in one_time(login.get("totp")).items())
    for custom in item.get("fields") or []:
        yield custom.get("name"), custom.get("value"), type(custom.get("type")) is int and custom["type"] == 1
    for name, secret in ("card", ("number", "code")), ("identity", ()):
        yield from ((key, text, key in secret) for key, text in sorted((item.get(name) or {}).items()) if is_text(text))


def fields_of(item):
    """The fields of an item by their keys, and the keys of those that are hidden. If a key is taken, the first that is free
    with a number after it serves."""
    fields, hidden = {}, []
    for key, text, is_hidden in said_of(item):
        key = key or ""
        if key in fields:
            key = next(numbered for number in itertools.count(2) if (numbered := f"{key} {number}") not in fields)
        fields[key] = text or ""
        hidden += [key] if is_hidden else []
    return fields, hidden


def of_bitwarden(data, line, now):
    export = json_of(data)
    model.refuse_if(not is_object(export), 4, "bad JSON")
    model.refuse_if(export.get("encrypted") is True, 5, "encrypted export")
    folders = checked(export.get("folders"), lambda one: is_object(one) and is_text(one.get("id")) and is_text(one.get("name")), "bad folder")
    paths = {one["id"]: [name for name in one["name"].split("/") if name] for one in reversed(folders)}
    is_item = object_of(id=is_id, folderId=lambda one: is_text(one) and one in paths, name=is_text, notes=is_text, login=LOGIN, fields=list_of(CUSTOM),
                        card=is_object, identity=is_object, creationDate=is_date, revisionDate=is_date, passwordHistory=list_of(EARLIER))
    items = checked(export.get("items"), is_item, "bad item")
    ids = [uuid.UUID(one["id"]).bytes if one.get("id") is not None else None for one in items]
    model.refuse_if(NIL in ids, 4, f"nil id at {ids.index(NIL) + 1 if NIL in ids else ''}")
    tree = Tree(now)
    for folder in folders:
        tree.group([name for name in folder["name"].split("/") if name])
    for identity, item in zip(ids, items):
        def date(value, name):
            return now if value.get(name) is None else date_of(value[name])

        earlier = sorted({(date(one, "lastUsedDate"), one.get("password") or "") for one in item.get("passwordHistory") or []})
        modified = max([date(item, "revisionDate"), *(used + 1 for used, _ in earlier)])
        model.refuse_if(modified > LAST, 8, "limit passed")
        fields, hidden = fields_of(item)
        tree.add(paths.get(item.get("folderId"), []), identity, fields, date(item, "creationDate"), modified, hidden, earlier)
    return tree.whole()


# ---- all formats


def of_document(data, line, now):
    """A plain document. The reader answers whatever refuses it."""
    status, said = model.rules.answer(data)
    model.refuse_if(status, status, said)
    return model.document_of(data)


def imported(form, data, line, now):
    """The document that a source gives, or its refusal. The line is the password of a source of Password Safe."""
    model.refuse_if(len(data) > FILE_LIMIT, 8, "limit passed")
    model.refuse_if(form != "xml" and now > LAST, 8, "limit passed")
    try:
        return {"xml": of_document, "psafe3": of_psafe, "csv": of_table, "bitwarden": of_bitwarden}[form](data, line, now)
    except psafe.Refused as refused:
        raise Refused(refused.status, refused.text)


def report(form, data):
    """What is printed of an import that is carried out."""
    return "".join(f"Column passed over: {name}\n" for name in passed_over(form, data)) + "Successfully imported database.\n"


# ---- known texts


P = ("<KeePassFile><Root><Group><UUID>@1</UUID><Name>Root</Name><Entry><UUID>@2</UUID><String><Key>Title</Key><Value>Bank</Value></String></Entry>"
     "<Entry><UUID>@3</UUID><String><Key>Title</Key><Value>Mail</Value></String></Entry><Group><UUID>@4</UUID><Name>Work</Name></Group></Group>"
     "</Root></KeePassFile>")
KNOWN = (("xml", model.whole(P).encode(), 4284, "a67f0d412f55cabca573c979380fab298e98ddae17694778458cb87d2c44c4e0"),
         ("csv", b"Group,Title,Password\nRoot/Home,Wifi,s3\n", 3791, "2d4f14178cf3ca2e01addbd4165f3c15b6e86fed85365874e24daf154fb09cbf"))


def try_known():
    wrong = 0
    for form, data, length, digest in KNOWN:
        text = model.spelled(imported(form, data, b"", 63_839_664_000))
        if (len(text), hashlib.sha256(text).hexdigest()) != (length, digest):
            wrong += 1
            print(f"{form}: {len(text)} bytes, {hashlib.sha256(text).hexdigest()}")
    print(f"{len(KNOWN)} texts, {wrong} otherwise")
    return 1 if wrong else 0


# ---- in the place of the program


class Words:
    """The words of an import that are known to be right."""

    def __init__(self, words):
        words = list(words)
        self.form, self.plain, self.quiet, self.asks, self.key_file, self.positions = "xml", False, False, False, None, []
        while words:
            word = words.pop(0)
            if word == "--":
                self.positions += words
                break
            name, _, value = word.partition("=")
            if name in ("--format", "--set-key-file"):
                setattr(self, "form" if name == "--format" else "key_file", value or words.pop(0))
            elif name.startswith("--"):
                self.note({"--plain": "l", "--quiet": "q", "--set-password": "p"}[name])
            elif word.startswith("-") and word != "-":
                self.note(word[1:])
            else:
                self.positions.append(word)
        self.source, self.file = self.positions

    def note(self, letters):
        self.plain, self.quiet, self.asks = self.plain or "l" in letters, self.quiet or "q" in letters, self.asks or "p" in letters


def stand_in(words):
    """Does what the program does with these words, where they are right, and `--plain` is one of them."""
    said, line, subject = Words(words), b"", "input"
    try:
        if said.form == "psafe3":
            line = read_line(sys.stdin.buffer)
        subject = said.source
        data = file_at(said.source)
        document = imported(said.form, data, line, model.seconds(time.time()))
        subject = said.file
        model.refuse_if(os.path.lexists(said.file) and os.path.isfile(said.file), 2, "file exists")
        model.refuse_if(os.path.lexists(said.file), 7, "file fault")
        try:
            with open(said.file + ".part", "wb") as file:
                file.write(model.spelled(document))
            os.rename(said.file + ".part", said.file)
        except OSError:
            if os.path.isfile(said.file + ".part"):
                os.remove(said.file + ".part")
            raise Refused(7, "file fault")
    except Refused as refused:
        sys.stderr.write(f"keepass: {'words' if refused.status == 9 else subject}: {refused.text}\n")
        return refused.status
    sys.stdout.write("" if said.quiet else report(said.form, data))
    return 0


def read_line(source):
    text = source.readline()
    model.refuse_if(not text, 12, "line 1 missing")
    text = text.removesuffix(b"\n").removesuffix(b"\r")
    model.refuse_if(len(text) > LINE_LIMIT, 8, "limit passed")
    try:
        text.decode()
    except UnicodeDecodeError:
        raise Refused(4, "line 1 is not UTF-8")
    return text


def file_at(path):
    """The bytes of a file, of which as many are read as show that it is too long."""
    model.refuse_if(not os.path.exists(path), 7, "no such file")
    model.refuse_if(not os.path.isfile(path), 7, "file fault")
    with open(path, "rb") as file:
        return file.read(FILE_LIMIT + 1)


if __name__ == "__main__":
    sys.exit(stand_in(sys.argv[2:]) if sys.argv[1:] else try_known())
