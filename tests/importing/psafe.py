"""Files of Password Safe V3 (formatV3.txt of the Password Safe project), read and written without the code of this repository. Twofish is
that of libgcrypt, which every Debian system has; hashes are Python's."""
import ctypes, ctypes.util, hashlib, hmac, os, struct

MARK = b"PWS3-EOFPWS3-EOF"
ITERATIONS = 67_108_864
UUID, GROUP, TITLE, USER, NOTES, PASSWORD, CREATED, MODIFIED, URL, HISTORY, END = 1, 2, 3, 4, 5, 6, 7, 12, 13, 15, 255
TEXTS = GROUP, TITLE, USER, NOTES, PASSWORD, URL, HISTORY
TIMES = CREATED, MODIFIED
TWOFISH, ECB, CBC = 10, 1, 3

gcrypt = ctypes.CDLL(ctypes.util.find_library("gcrypt") or "libgcrypt.so.20")
gcrypt.gcry_check_version(None)


class Twofish:
    """Twofish under a key of 32 bytes: each block alone, or, with a vector, each with the one before it."""

    def __init__(self, key, iv=None):
        self.handle = ctypes.c_void_p()
        self.due(gcrypt.gcry_cipher_open(ctypes.byref(self.handle), TWOFISH, ECB if iv is None else CBC, 0))
        self.due(gcrypt.gcry_cipher_setkey(self.handle, key, ctypes.c_size_t(len(key))))
        if iv is not None:
            self.due(gcrypt.gcry_cipher_setiv(self.handle, iv, ctypes.c_size_t(len(iv))))

    def due(self, error):
        if error:
            raise ValueError(f"libgcrypt: {error}")

    def of(self, call, text):
        out = ctypes.create_string_buffer(len(text))
        if text:
            self.due(call(self.handle, out, ctypes.c_size_t(len(text)), text, ctypes.c_size_t(len(text))))
        return out.raw

    def encrypt(self, text):
        return self.of(gcrypt.gcry_cipher_encrypt, text)

    def decrypt(self, text):
        return self.of(gcrypt.gcry_cipher_decrypt, text)

    def __del__(self):
        gcrypt.gcry_cipher_close(self.handle)


def sha256(text):
    return hashlib.sha256(text).digest()


def stretched(password, salt, iterations):
    key = sha256(password + salt)
    for _ in range(iterations):
        key = sha256(key)
    return key


# ---- writing


def field(kind, content=b"", length=None):
    """A field, in whole blocks; `length` is what it says of its content, where that is not so."""
    text = struct.pack("<IB", len(content) if length is None else length, kind) + content
    return text + os.urandom(-len(text) % 16)


def moment(unix, size=4):
    return unix.to_bytes(size, "little")


def contents(pieces):
    return b"".join(content for _, content in pieces)


def file_of(pieces, password=b"pw", iterations=2048, text=None, mac_of=None, drawn=os.urandom, rest=b""):
    """A file of fields, each a type and its content. `text` is what is enciphered in their place, `mac_of` what the MAC is of in the
    place of their contents, and `rest` comes after the file."""
    salt, block_key, mac_key, iv = drawn(32), drawn(32), drawn(32), drawn(16)
    key = stretched(password, salt, iterations)
    alone = Twofish(key)
    text = b"".join(field(kind, content) for kind, content in pieces) if text is None else text
    mac = hmac.new(mac_key, contents(pieces) if mac_of is None else mac_of, "sha256").digest()
    return (b"PWS3" + salt + struct.pack("<I", iterations) + sha256(key) + alone.encrypt(block_key) + alone.encrypt(mac_key) + iv
            + Twofish(block_key, iv).encrypt(text) + MARK + mac + rest)


HEADER = [(0, b"\x0e\x03"), (END, b"")]


def record(*fields, **texts):
    """The fields of a record, with the one that ends it: types and contents, or texts by the names of their types in lower case."""
    kinds = {"group": GROUP, "title": TITLE, "user": USER, "notes": NOTES, "password": PASSWORD, "url": URL, "history": HISTORY}
    return [*fields, *((kinds[name], text.encode()) for name, text in texts.items()), (END, b"")]


# ---- reading


class Refused(Exception):
    """A refusal: its status and its text."""

    def __init__(self, status, text):
        super().__init__(text)
        self.status, self.text = status, text


def opened(data, password):
    """The deciphered bytes of a file, the key of the MAC, and the MAC."""
    if data[:4] != b"PWS3":
        raise Refused(4, "not a psafe3 file")
    end = next((at for at in range(152, len(data) - 15, 16) if data[at : at + 16] == MARK), None) if len(data) >= 152 else None
    if end is None or end + 48 > len(data):
        raise Refused(4, f"ends early at {len(data)}")
    iterations = int.from_bytes(data[36:40], "little")
    if iterations > ITERATIONS:
        raise Refused(8, "limit passed")
    key = stretched(password, data[4:36], iterations)
    if sha256(key) != data[40:72]:
        raise Refused(3, "wrong password")
    alone = Twofish(key)
    block_key, mac_key = alone.decrypt(data[72:104]), alone.decrypt(data[104:136])
    return Twofish(block_key, data[136:152]).decrypt(data[152:end]), mac_key, data[end + 16 : end + 48]


def bad_field(place):
    return Refused(4, f"bad field at {place}")


def is_malformed(kind, content, last):
    """A field of a record that is not as its type asks; `last` is the last moment that there is, in seconds since 1970."""
    if kind in TEXTS:
        try:
            content.decode()
        except UnicodeDecodeError:
            return True
    if kind in TIMES and len(content) in (4, 5, 8):
        return int.from_bytes(content, "little") > last
    return kind == UUID and len(content) != 16


def sections(text, last):
    """The contents of all fields, and the fields of each record. The first section is the header."""
    found, open_section, joined, at = [], [], [], 0
    while at < len(text):
        length, kind = struct.unpack("<IB", text[at : at + 5])
        content = text[at + 5 : at + 5 + length]
        if len(content) < length or found and is_malformed(kind, content, last):
            raise bad_field(at)
        joined.append(content)
        if kind == END:
            found.append(open_section)
            open_section = []
        else:
            open_section.append((kind, content))
        at += (5 + length + 15) // 16 * 16
    if open_section or not found:
        raise bad_field(len(text))
    return b"".join(joined), found[1:]


def records(data, password, last):
    """The records of a file, each a list of types and contents."""
    text, mac_key, kept = opened(data, password)
    joined, found = sections(text, last)
    mac = hmac.new(mac_key, joined, "sha256").digest()
    if mac != kept:
        raise Refused(3, f"damaged or wrong key: kept {kept.hex()} found {mac.hex()}")
    return found
