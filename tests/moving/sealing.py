"""Seals documents as KDBX 3.1, 4.0 and 4.1 for the tests of this folder, and opens what `keepass` writes, down to the document's text. The ciphers are
those of tests/opening/reference.py, which needs Debian's python3-pycryptodome and, for Twofish, python3-pykeepass."""
import os, struct, sys, uuid

here = os.path.dirname(os.path.realpath(__file__))
sys.path.insert(0, os.path.join(here, "..", "opening"))
sys.dont_write_bytecode = True
import reference as opening

PASSWORD = "one two three é"
VERSIONS = opening.VERSION_3_1, opening.VERSION_4_0, opening.VERSION_4_1
CIPHERS = "aes", "chacha20", "twofish"
AES_KDF = uuid.UUID("c9d9f39a-628a-4460-bf74-0d08c18a4fea").bytes


def field(number, content=b"", form="<BI"):
    return struct.pack(form, number, len(content)) + content


def kind(number):
    """The version and the cipher of a number: each of the nine pairs once, from 0 on."""
    return VERSIONS[(number // 3 + number) % 3], CIPHERS[number % 3]


def item(kind, key, value):
    return struct.pack("<BI", kind, len(key)) + key + struct.pack("<I", len(value)) + value


def composite(password, key_file=None):
    """The composite key of a password and the bytes of a key file; an empty one is none."""
    parts = opening.sha256(password.encode()) if password else b""
    return opening.sha256(parts + (opening.key_file_key("key file", key_file) if key_file else b""))


def header_of(cipher, version):
    """A header with one round of AES, and in KDBX 4 public data."""
    kdf = b"\0\1" + item(0x42, b"$UUID", AES_KDF) + item(5, b"R", struct.pack("<Q", 1)) + item(0x42, b"S", os.urandom(32)) + b"\0"
    named = next(uuid.UUID(one).bytes for one, name in opening.CIPHERS.items() if name == cipher)
    public = b"\0\1" + item(0x18, b"made by", b"a test") + b"\0"
    common = ((2, named), (3, bytes(4)), (4, os.urandom(32)), (7, os.urandom(12 if cipher == "chacha20" else 16)))
    old = ((5, os.urandom(32)), (6, struct.pack("<Q", 1)), (8, os.urandom(32)), (9, os.urandom(32)), (10, struct.pack("<I", 2)))
    later = ((11, kdf), (12, public))
    is_old = version == opening.VERSION_3_1
    fields = (*common, *(old if is_old else later), (0, b"\r\n\r\n"))
    return opening.SIGNATURE + struct.pack("<I", version) + b"".join(field(*one, "<BH" if is_old else "<BI") for one in fields)


def cut(text, lengths=()):
    """The contents of the blocks of a text: of these lengths, then of 4,096 bytes, and the empty one that ends them. An empty one ends them
    wherever it stands, and what comes after it is behind the end."""
    pieces, at = [], 0
    for length in lengths:
        pieces.append(text[at : at + length])
        at += length
    return [*pieces, *(text[place : place + 4096] for place in range(at, len(text), 4096)), b""]


def sealed_old(write, cipher, composite_key, lengths=()):
    """A file of KDBX 3.1."""
    head = header_of(cipher, opening.VERSION_3_1)
    read = opening.Header(head).settle()
    text, _ = write(opening.stream_of(2, read.fields[8]).encrypt, opening.sha256(head))
    hashed = b"".join(struct.pack("<I", index) + (opening.sha256(block) if block else bytes(32)) + struct.pack("<I", len(block)) + block
                      for index, block in enumerate(cut(text, lengths)))
    return head + enciphered(read, opening.Keys(read, composite_key), read.fields[9] + hashed)


def enciphered(header, keys, text):
    size = 16 - len(text) % 16
    padded = text if header.cipher == "chacha20" else text + bytes([size]) * size
    return opening.cipher_of(header, keys.cipher).encrypt(padded)


def sealed(write, cipher="aes", version=opening.VERSION_4_0, composite_key=None, lengths=()):
    """A file of a document under a composite key, or under PASSWORD, whose first blocks have these lengths; `write` gives its text under a
    stream, and in 3.1 with the hash of the header, and its binaries."""
    composite_key = composite_key or composite(PASSWORD)
    if version == opening.VERSION_3_1:
        return sealed_old(write, cipher, composite_key, lengths)
    head, key = header_of(cipher, version), os.urandom(64)
    text, pool = write(opening.stream_of(3, key).encrypt, None)
    inner = field(1, struct.pack("<I", 3)) + field(2, key) + b"".join(field(3, bytes([hidden]) + content) for content, hidden in pool) + field(0) + text
    read = opening.Header(head + opening.sha256(head) + bytes(32)).settle()
    keys = opening.Keys(read, composite_key)
    secret = enciphered(read, keys, inner)
    blocks = b"".join(keys.block_code(index, piece) + struct.pack("<I", len(piece)) + piece for index, piece in enumerate(cut(secret, lengths)))
    return head + read.hash + keys.header_code(read) + blocks


class Opened:
    """What a file says outside its document's text: its version and settings, the stream that hides values, binaries, and the text. In
    3.1 the binaries are in the text, and the hash of the header is to be there."""

    def __init__(self, data, key):
        header = opening.Header(data).settle()
        keys = opening.Keys(header, key)
        self.pool, self.header_hash = [], None
        if header.is_old:
            self.text = opening.hashed_contents(header.fields[9], opening.deciphered(header, keys))
            number, stream, self.header_hash = opening.little(header.fields[10]), header.fields[8], opening.sha256(data[: header.size])
        else:
            if keys.header_code(header) != header.code:
                raise opening.Refused(3, "damaged or wrong key")
            number, stream, self.pool, self.text = opening.inner_fields(opening.deciphered(header, keys))
        self.version = opening.little(data[8:12])
        self.settings = header.cipher, header.kdf[:4], header.fields.get(12)
        self.drawn = header.seed, header.iv, header.kdf[4], stream
        self.stream = opening.stream_of(number, stream).encrypt
