#!/usr/bin/python3
"""A slow model of `keepass db-edit` and `keepass db-create`, written from the rules alone: which settings and which key a file has
afterwards, or why it is refused; and, by what was drawn, every byte of the file. The hashes and ciphers are other programs'
(tests/opening/reference.py), and documents are those of the models of tests/moving and tests/importing.

    keys.py WORD...    does what the program does with these words of db-edit and db-create, so that the tests can be tried on it;
                       words of other commands are given to the program that the variable KEEPASS names"""
import base64, collections, os, struct, sys, time, uuid
from xml.etree import ElementTree

sys.dont_write_bytecode = True
here = os.path.dirname(os.path.realpath(__file__))
sys.path[:0] = [os.path.join(here, "..", name) for name in ("importing", "moving", "words")]
import importing, reading, sealing

model, opening, field, item = importing.model, sealing.opening, sealing.field, sealing.item
Refused, refuse_if = model.Refused, model.refuse_if
VERSIONS = {"3.1": opening.VERSION_3_1, "4.0": opening.VERSION_4_0, "4.1": opening.VERSION_4_1}
NAMES = {number: name for name, number in VERSIONS.items()}
CIPHERS = {name: bytes.fromhex(text.replace("-", "")) for text, name in opening.CIPHERS.items()}
KDFS = {name: bytes.fromhex(text.replace("-", "")) for text, name in reversed(opening.KDFS.items())}
BLOCK = 1 << 20
LIMIT = 8, "limit passed"

# A key derivation has memory in bytes, and none and no lanes where it is that of AES.
Kdf = collections.namedtuple("Kdf", "kind rounds memory lanes")
Settings = collections.namedtuple("Settings", "version cipher kdf public")
# What is drawn for a file; only one of KDBX 3.1 has start bytes.
Drawn = collections.namedtuple("Drawn", "salt seed iv stream start")
IMPORTED = Settings(opening.VERSION_4_0, "aes", Kdf("argon2d", 10, 64 << 20, 2), None)


# ---- keys


def composite(password, key_file):
    """The composite key of a password and the bytes of a key file; None is none, and an empty password is one."""
    parts = b"" if password is None else opening.sha256(password.encode())
    return opening.sha256(parts + (b"" if key_file is None else opening.key_file_key("key file", key_file)))


# ---- files


class File:
    """A file as it is opened: its settings, what was drawn for it, its text and the stream that hides values in it, and its binaries
    where they are not in the text."""

    def __init__(self, data, key):
        header = opening.Header(data).settle()
        keys = opening.Keys(header, key)
        self.settings = Settings(opening.little(data[8:12]), header.cipher, Kdf(*header.kdf[:4]), header.fields.get(12))
        start, self.pool = header.fields.get(9, b""), []
        if header.is_old:
            self.text = opening.hashed_contents(start, opening.deciphered(header, keys))
            number, stream = opening.little(header.fields[10]), header.fields[8]
        else:
            if keys.header_code(header) != header.code:
                raise Refused(3, "damaged or wrong key")
            number, stream, self.pool, self.text = opening.inner_fields(opening.deciphered(header, keys))
        self.drawn = Drawn(header.kdf[4], header.seed, header.iv, stream, start)
        self.stream = opening.stream_of(number, stream)

    def document(self):
        """The document, which is read as one by itself: its hidden values are marked, and its binaries are in it. Once of a file."""
        whole = ElementTree.fromstring(self.text)
        for element in whole.iter():
            if element.attrib.pop("Protected", "") == "True":
                opened = self.stream.decrypt(base64.b64decode(element.text or ""))
                element.text = base64.b64encode(opened).decode() if element.tag == "Binary" else opened.decode()
                element.set("ProtectInMemory", "True")
        if self.settings.version != opening.VERSION_3_1:
            binaries = ElementTree.SubElement(whole.find("Meta"), "Binaries")
            for number, content in enumerate(self.pool):
                hidden = {"ProtectInMemory": "True"} if content[0] & 1 else {}
                ElementTree.SubElement(binaries, "Binary", {"ID": str(number)} | hidden).text = base64.b64encode(content[1:]).decode()
        return model.document_of(ElementTree.tostring(whole, encoding="utf-8", xml_declaration=True))


def head_of(settings, drawn):
    """The header of a file."""
    kdf, iv = settings.kdf, (7, drawn.iv)
    first = (2, CIPHERS[settings.cipher]), (3, bytes(4)), (4, drawn.seed)
    if settings.version == opening.VERSION_3_1:
        fields = (*first, (5, drawn.salt), (6, struct.pack("<Q", kdf.rounds)), iv, (8, drawn.stream), (9, drawn.start), (10, struct.pack("<I", 2)))
        form = "<BH"
    else:
        salt, named = item(0x42, b"S", drawn.salt), item(0x42, b"$UUID", KDFS[kdf.kind])
        if kdf.kind == "aes":
            costs = item(5, b"R", struct.pack("<Q", kdf.rounds)) + salt
        else:
            costs = (salt + item(4, b"P", struct.pack("<I", kdf.lanes)) + item(5, b"M", struct.pack("<Q", kdf.memory))
                     + item(5, b"I", struct.pack("<Q", kdf.rounds)) + item(4, b"V", struct.pack("<I", 0x13)))
        fields = (*first, iv, (11, b"\0\1" + named + costs + b"\0"), *([] if settings.public is None else [(12, settings.public)]))
        form = "<BI"
    ended = (*fields, (0, b"\r\n\r\n"))
    return opening.SIGNATURE + struct.pack("<I", settings.version) + b"".join(field(*one, form) for one in ended)


def pieces_of(text):
    """A text in blocks, with the empty one that ends them."""
    return [text[at : at + BLOCK] for at in range(0, len(text), BLOCK)] + [b""]


def file_of(settings, document, key, drawn):
    """The bytes of a file under a composite key, by what was drawn."""
    head = head_of(settings, drawn)
    if settings.version == opening.VERSION_3_1:
        read = opening.Header(head).settle()
        text = model.Writer(document, opening.stream_of(2, drawn.stream).encrypt, opening.sha256(head)).text
        blocks = b"".join(struct.pack("<I", index) + (opening.sha256(piece) if piece else bytes(32)) + struct.pack("<I", len(piece)) + piece
                          for index, piece in enumerate(pieces_of(text)))
        return head + sealing.enciphered(read, opening.Keys(read, key), drawn.start + blocks)
    read = opening.Header(head + opening.sha256(head) + bytes(32)).settle()
    keys = opening.Keys(read, key)
    writer = model.Writer(document, opening.stream_of(3, drawn.stream).encrypt)
    inner = (field(1, struct.pack("<I", 3)) + field(2, drawn.stream) + b"".join(field(3, bytes([hidden]) + content) for content, hidden in writer.pool)
             + field(0) + writer.text)
    blocks = b"".join(keys.block_code(index, piece) + struct.pack("<I", len(piece)) + piece
                      for index, piece in enumerate(pieces_of(sealing.enciphered(read, keys, inner))))
    return head + read.hash + keys.header_code(read) + blocks


def draw(settings):
    """What is drawn for a file of these settings."""
    old = settings.version == opening.VERSION_3_1
    sizes = 32, 32, 12 if settings.cipher == "chacha20" else 16, 32 if old else 64, 32 if old else 0
    return Drawn(*map(os.urandom, sizes))


# ---- what the words ask for


def asked_kdf(given):
    """The key derivation that options ask for, or None."""
    kind = given.get("kdf")
    if kind is None:
        return None
    rounds = int(given.get("rounds", 100_000 if kind == "aes" else 10))
    if kind == "aes":
        return Kdf(kind, rounds, 0, 0)
    return Kdf(kind, rounds, 1024 * int(given.get("memory", 65536)), int(given.get("lanes", 2)))


def refuse_costs(kdf):
    """The limits of a key derivation."""
    if kdf.kind == "aes":
        refuse_if(kdf.rounds > 4_294_967_296, *LIMIT)
    else:
        refuse_if(not 1 <= kdf.rounds <= 4_294_967_295, *LIMIT)
        refuse_if(not 8192 * kdf.lanes <= kdf.memory <= 1_073_741_824, *LIMIT)
        refuse_if(not 1 <= kdf.lanes <= 1024, *LIMIT)


def edited(settings, document, given):
    """The settings of a file after `db-edit`."""
    kdf = asked_kdf(given) or settings.kdf
    least = max(model.needed_version(document), opening.VERSION_4_0 if kdf.kind != "aes" or settings.public is not None else opening.VERSION_3_1)
    version = VERSIONS[given["version"]] if "version" in given else max(settings.version, least)
    refuse_if(version < least, 2, f"needs version {NAMES[least]}")
    refuse_costs(kdf)
    return Settings(version, given.get("cipher", settings.cipher), kdf, settings.public)


def created(given):
    """The settings of a file that `db-create` makes."""
    kdf = asked_kdf(given) or IMPORTED.kdf
    refuse_costs(kdf)
    return IMPORTED._replace(cipher=given.get("cipher", IMPORTED.cipher), kdf=kdf)


def empty_document(identity, name, now):
    """The document that `db-create` makes: a root group alone. A name is that of the database too."""
    document = importing.Tree(now).document
    document["Root"]["UUID"] = identity
    document["Root"]["Times"]["LastModificationTime"] = now
    if name is not None:
        document["Root"]["Name"] = name
        document["Meta"] |= {"DatabaseName": name, "DatabaseNameChanged": now}
    return document


def changed_key(given, password, key_file, new_password, new_key_file):
    """The password and the key file that open a file after `db-edit`."""
    if "set-password" in given:
        password = new_password
    elif "unset-password" in given:
        password = None
    if "set-key-file" in given:
        key_file = new_key_file
    elif "unset-key-file" in given:
        key_file = None
    return password, key_file


# ---- words


FLAGS = {"p": "set-password", "q": "quiet"}
VALUED = {"set-key-file", "cipher", "kdf", "rounds", "memory", "lanes", "version", "name", "key-file"}


def parted(words):
    """The options of a command with their values, and its file, in words that are right."""
    rest, given, positions = list(words[1:]), {}, []
    while rest:
        word = rest.pop(0)
        if word == "--":
            positions += rest
            break
        if word.startswith("--"):
            name, sign, value = word[2:].partition("=")
            given[name] = (value if sign else rest.pop(0)) if name in VALUED else ""
        elif word.startswith("-k"):
            given["key-file"] = word[2:].removeprefix("=") or rest.pop(0)
        elif word.startswith("-") and word != "-":
            given |= {FLAGS[letter]: "" for letter in word[1:]}
        else:
            positions.append(word)
    return given, *positions


# ---- in the place of the program


def read_lines(count):
    lines = []
    for number in range(1, count + 1):
        try:
            lines.append(importing.read_line(sys.stdin.buffer).decode())
        except Refused as refused:
            raise Refused(refused.status, refused.text.replace("line 1", f"line {number}"))
    return lines


def read_if(name, subjects):
    """The bytes of a key file, if one is named. It is what a refusal is about meanwhile."""
    if name is None:
        return None
    subjects.append(name)
    data = importing.file_at(name)
    composite(None, data)
    return data


def write(file, data):
    """Puts a file in the place of another by a draft. It has the mode of that, and a new one is its owner's alone."""
    mode = os.stat(file).st_mode & 0o777 if os.path.exists(file) else 0o600
    draft = os.path.join(os.path.dirname(file), f".{os.path.basename(file)}.{os.urandom(8).hex()}.keepass")
    try:
        with open(draft, "wb") as out:
            out.write(data)
        os.chmod(draft, mode)
        os.rename(draft, file)
    except OSError:
        if os.path.exists(draft):
            os.remove(draft)
        raise Refused(7, "file fault")


def edit_file(given, file, subjects):
    lines = read_lines(("no-password" not in given) + ("set-password" in given))
    password = lines.pop(0) if "no-password" not in given else None
    key_file = read_if(given.get("key-file"), subjects)
    subjects.append(file)
    key = composite(password, key_file)
    old = File(importing.file_at(file), key)
    document = old.document()
    new_key_file = read_if(given.get("set-key-file"), subjects)
    subjects.append(file)
    settings = edited(old.settings, document, given)
    key = composite(*changed_key(given, password, key_file, lines[0] if lines else None, new_key_file))
    write(file, file_of(settings, document, key, draw(settings)))
    return "Successfully edited the database.\n"


def create_file(given, file, subjects):
    password = read_lines(1)[0] if "set-password" in given else None
    subjects.append(file)
    refuse_if(os.path.isfile(file), 2, "file exists")
    refuse_if(os.path.lexists(file), 7, "file fault")
    key_file = read_if(given.get("set-key-file"), subjects)
    subjects.append(file)
    document = empty_document(model.new_id(os.urandom(16)), given.get("name"), model.seconds(time.time()))
    if "plain" in given:
        write(file, model.spelled(document))
    else:
        settings = created(given)
        write(file, file_of(settings, document, composite(password, key_file), draw(settings)))
    return "Successfully created new database.\n"


def stand_in(words):
    subjects = ["words"]
    try:
        refuse_if(reading.read(words) is None, 1, "wrong words")
        given, file = parted(words)
        subjects.append("input")
        said = {"db-edit": edit_file, "db-create": create_file}[words[0]](given, file, subjects)
    except (Refused, opening.Refused) as refused:
        sys.stderr.write(f"keepass: {subjects[-1]}: {refused.text}\n")
        return refused.status
    sys.stdout.write("" if "quiet" in given else said)
    return 0


if __name__ == "__main__":
    if sys.argv[1] not in ("db-edit", "db-create"):
        os.execv(os.environ["KEEPASS"], [os.environ["KEEPASS"], *sys.argv[1:]])
    sys.exit(stand_in(sys.argv[1:]))
