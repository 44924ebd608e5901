#!/usr/bin/python3
"""A slow reader of KDBX 3.1, 4.0 and 4.1 files, written from the rules alone: the second pair of eyes on tests/opening/rows.

    reference.py ls [-R] [-f] [-q] [-k FILE] [--no-password] DATABASE [GROUP]
                             prints what the program should print, and gives its status
    reference.py --rows      answers each row of the tables, and prints the rows that say something else

Documents are read by tests/damaged/reference.py. The ciphers and Argon2 are those of Debian's python3-pycryptodome,
python3-argon2 and, for Twofish, python3-pykeepass; all else is here."""
import base64, hashlib, hmac, importlib.util, os, re, struct, sys, uuid

sys.dont_write_bytecode = True
folder = os.path.dirname(os.path.abspath(__file__))
found = importlib.util.spec_from_file_location("plain", os.path.join(folder, "..", "damaged", "reference.py"))
plain = importlib.util.module_from_spec(found)
found.loader.exec_module(plain)
Refused = plain.Refused

SIGNATURE = bytes.fromhex("03d9a29a67fb4bb5")
VERSION_3_1, VERSION_4_0, VERSION_4_1 = 0x00030001, 0x00040000, 0x00040001
HEADER_LIMIT, FILE_LIMIT, LINE_LIMIT, ROUNDS_LIMIT = 65536, 134217728, 4096, 4294967296
CIPHERS = {"31c1f2e6-bf71-4350-be58-05216afc5aff": "aes", "ad68f29f-576f-4bb9-a36a-d47af965346c": "twofish",
           "d6038a2b-8b6f-4cb5-a524-339a31dbb59a": "chacha20"}
KDFS = {"c9d9f39a-628a-4460-bf74-0d08c18a4fea": "aes", "7c02bb82-79a7-4ac0-927d-114a00648238": "aes",
        "ef636ddf-8c29-444b-91f7-a9a403e30a0c": "argon2d", "9e298b19-56db-4773-b23d-fc3ec6f0a1e6": "argon2id"}
# The fields of a header that count: those of 3.1, those of 4.x, and the lengths that some of them must have.
FIELDS_3, FIELDS_4 = (2, 3, 4, 5, 6, 7, 8, 9, 10), (2, 3, 4, 7, 11, 12)
FIELD_SIZES = {2: 16, 3: 4, 4: 32, 5: 32, 6: 8, 9: 32, 10: 4}
SIZES = {4: 4, 5: 8, 8: 1, 0x0C: 4, 0x0D: 8}
LIMIT = Refused(8, "limit passed")


def little(text):
    return int.from_bytes(text, "little")


def sha256(text):
    return hashlib.sha256(text).digest()


def sha512(text):
    return hashlib.sha512(text).digest()


def kept_and_found(kept, computed):
    return Refused(3, f"damaged or wrong key: kept {kept.hex()} found {computed.hex()}")


# ---- the header


class Header:
    """The fields of a header, where it ends, and in 4.x the two numbers after it."""

    def __init__(self, data):
        if data[:8] != SIGNATURE:
            raise Refused(4, "not a KDBX file")
        self.data, self.at, self.fields = data, 8, {}
        version = little(self.part(4))
        if version not in (VERSION_3_1, VERSION_4_0, VERSION_4_1):
            raise Refused(5, f"version {version}")
        self.is_old = version == VERSION_3_1
        while self.field() != 0:
            pass
        self.size = self.at
        if not self.is_old:
            self.hash, self.code = self.part(32), self.part(32)
        self.body = self.at

    def part(self, size):
        """The next bytes of the file, which must be there, and end where a header may."""
        end = self.at + size
        if end > len(self.data):
            raise Refused(4, f"ends early at {len(self.data)}")
        if end > HEADER_LIMIT:
            raise LIMIT
        self.at = end
        return self.data[end - size : end]

    def field(self):
        number, size = struct.unpack("<BH", self.part(3)) if self.is_old else struct.unpack("<BI", self.part(5))
        content = self.part(size)
        if number in (FIELDS_3 if self.is_old else FIELDS_4):
            if number in self.fields or size != FIELD_SIZES.get(number, size):
                raise Refused(4, f"bad header field {number}")
            self.fields[number] = dictionary(content) if number == 11 else content
        return number

    def settle(self):
        """What is tried once the header is whole, in its order."""
        if not self.is_old and sha256(self.data[: self.size]) != self.hash:
            raise kept_and_found(self.hash, sha256(self.data[: self.size]))
        for number in FIELDS_3 if self.is_old else FIELDS_4[:5]:
            if number not in self.fields:
                raise Refused(4, f"bad header field {number}")
        named = str(uuid.UUID(bytes=self.fields[2]))
        if named not in CIPHERS:
            raise Refused(5, f"unknown {named}")
        self.cipher, self.seed, self.iv = CIPHERS[named], self.fields[4], self.fields[7]
        if len(self.iv) != (12 if self.cipher == "chacha20" else 16):
            raise Refused(4, "bad header field 7")
        if little(self.fields[3]) != 0:
            raise Refused(5, "compressed")
        if self.is_old:
            self.kdf = "aes", little(self.fields[6]), 0, 0, self.fields[5]
            if self.kdf[1] > ROUNDS_LIMIT:
                raise LIMIT
        else:
            self.kdf = settled_kdf(self.fields[11])
        return self


def dictionary(content):
    """The items of a dictionary by their keys, each with its type, or its unknown version."""
    def faulty(place):
        return Refused(4, f"bad dictionary at {place}")

    if len(content) < 2:
        raise faulty(0)
    version = little(content[:2])
    if version >> 8 != 1:
        return version
    items, at = {}, 2
    while True:
        start = at
        if at >= len(content):
            raise faulty(start)
        kind, at = content[at], at + 1
        if kind == 0:
            break
        parts = []
        for _ in "key", "value":
            size, at = content[at : at + 4], at + 4
            if len(size) < 4 or at + little(size) > len(content):
                raise faulty(start)
            parts.append(content[at : at + little(size)])
            at += little(size)
        if kind not in (*SIZES, 0x18, 0x42) or len(parts[1]) != SIZES.get(kind, len(parts[1])):
            raise faulty(start)
        items[parts[0]] = kind, parts[1]
    needed(items, faulty(len(content)))
    return items


def needed(items, refusal):
    """A key that is missing, or has another type or, for an id and a seed, another length."""
    def stands(key, kind, size=None):
        found = items.get(key, (None, b""))
        return found[0] == kind and size in (None, len(found[1]))

    if not stands(b"$UUID", 0x42, 16):
        raise refusal
    kdf = KDFS.get(str(uuid.UUID(bytes=items[b"$UUID"][1])))
    whole = {"aes": stands(b"R", 5) and stands(b"S", 0x42, 32), None: True}
    argon = stands(b"S", 0x42) and stands(b"P", 4) and stands(b"M", 5) and stands(b"I", 5) and stands(b"V", 4)
    if not whole.get(kdf, argon):
        raise refusal


def settled_kdf(items):
    """The kind of a KDF and its numbers, within their limits."""
    if isinstance(items, int):
        raise Refused(5, f"variant {items}")
    named = str(uuid.UUID(bytes=items[b"$UUID"][1]))
    kind = KDFS.get(named)
    if kind is None:
        raise Refused(5, f"unknown {named}")
    numbers = {key: little(value) for key, (_, value) in items.items()}
    salt = items[b"S"][1]
    if kind == "aes":
        if numbers[b"R"] > ROUNDS_LIMIT:
            raise LIMIT
        return kind, numbers[b"R"], 0, 0, salt
    if numbers[b"V"] != 0x13:
        raise Refused(5, f"variant {numbers[b'V']}")
    if any(items.get(key, (0, b""))[1] for key in (b"K", b"A")):
        raise Refused(5, "variant 0")
    passes, memory, lanes = numbers[b"I"], numbers[b"M"], numbers[b"P"]
    if not (1 <= passes <= 4294967295 and 8192 * lanes <= memory <= 1073741824 and 1 <= lanes <= 1024 and 8 <= len(salt) <= 1024):
        raise LIMIT
    return kind, passes, memory, lanes, salt


# ---- keys


def key_file_key(name, text):
    """The key of a key file."""
    def bad(place):
        return Refused(4, f"bad key file at {place}")

    try:
        outermost = plain.Element(0, {})
        reader = plain.Reader(text)
        reader.inside(outermost, KEY_FILE, 0)
    except Refused:
        outermost = None
    if outermost is not None and outermost.one("KeyFile"):
        file = outermost.one("KeyFile")
        meta, key = file.one("Meta"), file.one("Key")
        version, data = meta and meta.one("Version"), key and key.one("Data")
        if version is None:
            raise bad(0)
        spelled = version.text.strip(" \t\n\r")
        if spelled[:2] not in ("1.", "2."):
            raise bad(version.place)
        if data is None:
            raise bad(0)
        if spelled[0] == "1":
            found = plain.sized(32)(data.text.strip(" \t\n\r"))
        else:
            digits = re.sub("[ \t\n\r]", "", data.text)
            found = bytes.fromhex(digits) if re.fullmatch("[0-9A-Fa-f]{64}", digits) else None
        if found is None:
            raise bad(data.place)
        if spelled[0] == "2" and "Hash" in data.attributes:
            kept = data.attributes["Hash"]
            if not re.fullmatch("[0-9A-Fa-f]{8}", kept):
                raise bad(data.place)
            if bytes.fromhex(kept) != sha256(found)[:4]:
                raise Refused(3, f"key file: kept {kept.lower()} found {sha256(found)[:4].hex()}")
        return found
    if len(text) == 32:
        return text
    if len(text) == 64 and re.fullmatch(b"[0-9A-Fa-f]{64}", text):
        return bytes.fromhex(text.decode())
    return sha256(text)


KEY_FILE = {"KeyFile": plain.last({"Meta": plain.last({"Version": plain.last(plain.plain_text)}),
                                   "Key": plain.last({"Data": plain.last(plain.plain_text)})})}


def transformed(composite, kdf):
    kind, rounds, memory, lanes, salt = kdf
    if kind == "aes":
        from Cryptodome.Cipher import AES
        cipher = AES.new(salt, AES.MODE_ECB)
        for _ in range(rounds):
            composite = cipher.encrypt(composite)
        return sha256(composite)
    from argon2 import low_level
    named = low_level.Type.D if kind == "argon2d" else low_level.Type.ID
    return low_level.hash_secret_raw(composite, salt, rounds, memory // 1024, lanes, 32, named, 0x13)


class Keys:
    """The cipher's key of a file, and the base of the keys of its codes."""

    def __init__(self, header, composite):
        key = transformed(composite, header.kdf)
        self.cipher, self.base = sha256(header.seed + key), sha512(header.seed + key + b"\1")

    def code(self, index, text):
        key = sha512(struct.pack("<Q", index) + self.base)
        return hmac.new(key, text, "sha256").digest()

    def header_code(self, header):
        return self.code(2**64 - 1, header.data[: header.size])

    def block_code(self, index, content):
        return self.code(index, struct.pack("<QI", index, len(content)) + content)


# ---- the body


def contents(header, keys):
    """The joined contents of the blocks."""
    joined, at, index, data = [], header.body, 0, header.data
    while True:
        code, size = data[at : at + 32], data[at + 32 : at + 36]
        content = data[at + 36 : at + 36 + little(size)]
        if len(size) < 4 or len(content) < little(size):
            raise Refused(4, f"ends early at {len(data)}")
        if keys.block_code(index, content) != code:
            raise Refused(3, f"damaged block {index}")
        if not content:
            return b"".join(joined)
        joined.append(content)
        at, index = at + 36 + len(content), index + 1


def cipher_of(header, key):
    """The decipherment of a file, and the encipherment."""
    from Cryptodome.Cipher import AES, ChaCha20
    if header.cipher == "chacha20":
        return ChaCha20.new(key=key, nonce=header.iv)
    if header.cipher == "aes":
        return AES.new(key, AES.MODE_CBC, header.iv)
    from pykeepass.kdbx_parsing.twofish import Twofish
    return Twofish.new(key, mode=Twofish.MODE_CBC, IV=header.iv)


def deciphered(header, keys):
    """The deciphered bytes of a file: in 4.x of the blocks' contents, in 3.1 of all after the header."""
    text = header.data[header.body :] if header.is_old else contents(header, keys)
    if header.cipher == "chacha20":
        return cipher_of(header, keys.cipher).decrypt(text) if text else b""
    faulty = Refused(3, "wrong key or damaged")
    if not text or len(text) % 16:
        raise faulty
    text = cipher_of(header, keys.cipher).decrypt(text)
    padding = text[-1]
    if not 1 <= padding <= 16 or text[-padding:] != bytes([padding]) * padding:
        raise faulty
    return text[:-padding]


def hashed_contents(start, text):
    """The joined contents of the hashed blocks in the deciphered bytes of a file of 3.1, which begin with its start bytes."""
    if text[:32] != start:
        raise Refused(3, "wrong key or damaged")
    joined, at, index = [], 32, 0
    while True:
        number, code, size = text[at : at + 4], text[at + 4 : at + 36], text[at + 36 : at + 40]
        content = text[at + 40 : at + 40 + little(size)]
        if len(size) < 4 or len(content) < little(size):
            raise Refused(4, f"ends early at {len(text)}")
        if little(number) != index or code != (sha256(content) if content else bytes(32)):
            raise Refused(3, f"damaged block {index}")
        if not content:
            return b"".join(joined)
        joined.append(content)
        at, index = at + 40 + len(content), index + 1


def inner_fields(text):
    """The stream, the attached files and the document of a deciphered file."""
    fields, pool, at = {}, [], 0
    while True:
        size = text[at + 1 : at + 5]
        content = text[at + 5 : at + 5 + little(size)]
        if len(size) < 4 or len(content) < little(size):
            raise Refused(4, f"ends early at {len(text)}")
        number, at = text[at], at + 5 + len(content)
        if number == 0:
            break
        if number in fields or (number == 1 and len(content) != 4) or (number == 3 and not content):
            raise Refused(4, f"bad header field {number}")
        if number == 3:
            pool.append(content)
        elif number in (1, 2):
            fields[number] = content
    for number in (1, 2):
        if number not in fields:
            raise Refused(4, f"bad header field {number}")
    return little(fields[1]), fields[2], pool, text[at:]


def stream_of(number, key):
    from Cryptodome.Cipher import ChaCha20, Salsa20
    if number == 2:
        return Salsa20.new(key=sha256(key), nonce=bytes.fromhex("e830094b97205d2a"))
    if number == 3:
        drawn = sha512(key)
        return ChaCha20.new(key=drawn[:32], nonce=drawn[32:44])
    raise Refused(5, f"stream {number}")


class SealedReader(plain.Reader):
    """Reads a document whose protected values the stream hides, in the order in which their elements end."""

    def __init__(self, text, stream):
        super().__init__(text)
        self.stream = stream

    def end(self, element, rule, second):
        if not second and plain.is_true(element.attributes, "Protected"):
            hidden = plain.base64_bytes(element.text.strip(" \t\n\r"))
            if hidden is None:
                raise plain.bad_value(element.place)
            opened = self.stream.decrypt(hidden) if hidden else b""
            self.open(element, rule, opened)
        super().end(element, rule, second)

    def open(self, element, rule, opened):
        """Puts the plain bytes in the place of the base64, so that the rule of the element's kind reads them."""
        del element.attributes["Protected"]
        if rule in ("attached", "pooled") or rule is plain.base64_bytes:
            element.text = base64.b64encode(opened).decode()
        elif rule is not None and not isinstance(rule, dict):
            try:
                element.text = opened.decode()
            except UnicodeDecodeError:
                raise plain.bad_value(element.place)


SEALED_META = {name: rule for name, rule in plain.META.items() if name != "Binaries"}
SEALED_TEXT = {"KeePassFile": plain.last({"Meta": plain.last(SEALED_META), "Root": plain.once(plain.ROOT)})}


def document(text, stream, pool=None, header_hash=None):
    """The root group of a document. Without a pool it is one of 3.1: its binaries, and the hash of its header, are in Meta."""
    outermost = plain.Element(0, {})
    SealedReader(text, stream).inside(outermost, plain.TEXT if pool is None else SEALED_TEXT, 0)
    file = outermost.one("KeePassFile")
    meta = file and file.one("Meta")
    if pool is None:
        binaries = meta and meta.one("Binaries")
        pool = {binary.number for binary in binaries.all("Binary")} if binaries else set()
    else:
        pool = set(range(len(pool)))
    root = file and file.one("Root")
    group = root and root.one("Group")
    if group is None:
        raise Refused(4, "missing element at 0")
    groups = plain.all_groups(group)
    entries = [entry for one in groups for entry in one.all("Entry")]
    ids = sorted(node.one("UUID").value for node in groups + entries)
    twice = [one for one, other in zip(ids, ids[1:]) if one == other]
    if twice:
        raise Refused(4, f"duplicate id {uuid.UUID(bytes=twice[0])}")
    versions = entries + [item for entry in entries if entry.one("History") for item in entry.one("History").all("Entry")]
    missing = sorted(at for version in versions for at in plain.references(version) if at[1] not in pool)
    if missing:
        raise Refused(4, f"no binary {missing[0][1]}")
    kept = meta and meta.one("HeaderHash")
    if header_hash is not None and kept and kept.value is not None and kept.value != header_hash:
        raise kept_and_found(kept.value, header_hash)
    return group


def opened(data, composite):
    """The root group of a file under a composite key."""
    if len(data) > FILE_LIMIT:
        raise LIMIT
    header = Header(data).settle()
    keys = Keys(header, composite)
    if header.is_old:
        text = hashed_contents(header.fields[9], deciphered(header, keys))
        return document(text, stream_of(little(header.fields[10]), header.fields[8]), header_hash=sha256(data[: header.size]))
    computed = keys.header_code(header)
    if computed != header.code:
        raise kept_and_found(header.code, computed)
    number, key, pool, text = inner_fields(deciphered(header, keys))
    return document(text, stream_of(number, key), pool)


# ---- the command


def name_of(group):
    return group.one("Name").text if group.one("Name") else ""


def listing(group, recursive, flat, level=0, path=""):
    front = path if flat else "  " * level
    lines = [front + plain.field(entry, "Title") for entry in group.all("Entry")]
    for one in group.all("Group"):
        lines.append(front + name_of(one) + "/")
        if recursive:
            lines += listing(one, recursive, flat, level + 1, path + name_of(one) + "/")
    return lines


def named_group(root, word):
    """The first group of a path, by its names below the root."""
    wanted = word[1:] if word.startswith("/") else word
    wanted = wanted[:-1] if wanted.endswith("/") else wanted
    left = [(root, "")]
    while left:
        group, path = left.pop(0)
        if path == wanted:
            return group
        below = "" if group is root else path + "/"
        left = [(one, below + name_of(one)) for one in group.all("Group")] + left
    raise Refused(2, "not found")


class Words:
    """The words of `ls`."""

    LONG = {"recursive": "R", "flatten": "f", "quiet": "q", "key-file": "k", "no-password": "no-password", "plain": "plain"}

    def __init__(self, words):
        self.options, self.positions, self.left = {}, [], list(words)
        if not self.left or self.left.pop(0) != "ls":
            raise Refused(1, "wrong words")
        while self.left:
            word = self.left.pop(0)
            if word == "--":
                self.positions += self.left
                break
            if len(word.encode()) > 1 and word.startswith("-"):
                self.option(word)
            else:
                self.positions.append(word)
        without_key = "no-password" in self.options and "k" not in self.options
        plain_and_key = "plain" in self.options and len({"no-password", "k"} & set(self.options))
        if not 1 <= len(self.positions) <= 2 or without_key or plain_and_key:
            raise Refused(1, "wrong words")

    def option(self, word):
        if word.startswith("--"):
            name, given, value = word[2:].partition("=")
            self.put(self.LONG.get(name), value if given else None)
        elif word[1] == "k":
            self.put("k", word[3:] if word[2:3] == "=" else word[2:] or None)
        else:
            for letter in word[1:]:
                self.put(letter if letter in "Rfq" else None, None)

    def put(self, name, value):
        if name == "k" and value is None and self.left and (not self.left[0].startswith("-") or self.left[0] == "-"):
            value = self.left.pop(0)
        if name is None or name in self.options or (name == "k") != (value is not None):
            raise Refused(1, "wrong words")
        self.options[name] = value


def first_line(text):
    line, ended, _ = text.partition(b"\n")
    if not text:
        raise Refused(12, "line 1 missing")
    line = line[:-1] if ended and line.endswith(b"\r") else line
    if len(line) > LINE_LIMIT:
        raise LIMIT
    try:
        line.decode()
    except UnicodeDecodeError:
        raise Refused(4, "line 1 is not UTF-8")
    return line


def read(name, files):
    """A file by its name: of those that are given, or on the disk."""
    if files is not None:
        if name == "folder":
            raise Refused(7, "file fault")
        if name in files:
            return files[name]
        raise Refused(7, "no such file")
    try:
        with open(name, "rb") as file:
            return file.read()
    except FileNotFoundError:
        raise Refused(7, "no such file")
    except OSError:
        raise Refused(7, "file fault")


def answer(words, text, files=None):
    """Status, output, and the line of a refusal for a call."""
    subject = "words"
    try:
        asked = Words(words)
        if "plain" in asked.options:
            subject = asked.positions[0]
            status, said = plain.answer(read(subject, files))
            return (0, said, "") if status == 0 else (status, "", f"keepass: {subject}: {said}\n")
        subject, keys = "input", b""
        if "no-password" not in asked.options:
            keys += sha256(first_line(text))
        if "k" in asked.options:
            subject = asked.options["k"]
            keys += key_file_key(subject, read(subject, files))
        subject = asked.positions[0]
        group = opened(read(subject, files), sha256(keys))
        if len(asked.positions) == 2:
            group = named_group(group, asked.positions[1])
        lines = listing(group, "R" in asked.options, "f" in asked.options)
        return 0, "".join(line + "\n" for line in lines), ""
    except Refused as refused:
        return refused.status, "", f"keepass: {subject}: {refused.text}\n"


# ---- the rows


def unescaped(text):
    return text.encode().decode("unicode_escape").encode("latin-1")


def spelled(text):
    """Like unescaped, for a text whose characters past ASCII are written as themselves."""
    return re.sub(rb"\\(x[0-9A-Fa-f]{2}|[nrt\\])", lambda found: unescaped(found[0].decode()), text.encode())


def changed(data, change):
    what, *numbers = change.split(" ")
    if what == "-":
        return data
    place = int(numbers[0])
    if what == "flip":
        return data[:place] + bytes([data[place] ^ 1]) + data[place + 1 :]
    if what == "cut":
        return data[:place]
    if what == "put":
        return data[:place].ljust(place, b"\0") + bytes.fromhex(numbers[1]) + data[place + len(numbers[1]) // 2 :]
    raise ValueError(change)


def table(name):
    for line in open(os.path.join(folder, name), encoding="utf-8"):
        if line.strip() and not line.startswith("#"):
            yield line.rstrip("\n").split("\t")


def input_of(line):
    """The input of a row: none for `-`, and {N} means so many letters a."""
    return b"" if line == "-" else re.sub(rb"\{(\d+)\}", lambda found: b"a" * int(found[1]), spelled(line))


def check_rows():
    data = os.path.join(folder, "..", "data")
    files = {name: read(os.path.join(data, name), None) for name in os.listdir(data)}
    count = apart = 0
    for name, status, said, *rest in table("rows"):
        if name == "file":
            files[status] = said.encode()
            continue
        file, change, line, *words = rest
        words = ["" if word == "''" else word for word in words]
        given = dict(files)
        if file.startswith("="):
            given["FILE"] = changed(base64.b64decode(file[1:]), change)
        elif file != "-":
            given["FILE"] = changed(files[file], change)
        found = answer(words, input_of(line), given)
        printed = "" if said == "-" else spelled(said).decode()
        wanted = (0, printed, "") if status == "0" else (int(status), "", f"keepass: {said}\n")
        count += 1
        if found != wanted:
            apart += 1
            print(f"{name}: the row says {wanted}, the reader {found}")
    print(f"{count} rows, {apart} read otherwise")
    return 1 if apart else 0


def main(words):
    if words == ["--rows"]:
        return check_rows()
    text = b"" if "--no-password" in words else sys.stdin.buffer.read()
    status, out, err = answer(words, text)
    sys.stdout.buffer.write(out.encode())
    sys.stderr.buffer.write(err.encode(errors="surrogateescape"))
    return status


if __name__ == "__main__":
    sys.exit(main(sys.argv[1:]))
