"""Small files of each kind, for the tests of this folder: one document by itself and in databases of KDBX 3.1, 4.0 and 4.1 under one round
of AES, a file of Password Safe, a table, and a key file."""
import base64, hashlib
from ciphers import sealing
import psafe

PASSWORD, TITLE, USER = "a password of the file", "Bank", "ada"
HIDDEN, OLD, NOTES, ATTACHED = "hidden in the entry", "hidden in its history", "what is noted", b"the bytes of an attachment"
IDS = [base64.b64encode(bytes([number]) * 16).decode() for number in range(10)]
TIMES = "<Times><CreationTime>{0}</CreationTime><LastModificationTime>{0}</LastModificationTime><LocationChanged>{0}</LocationChanged></Times>"


def encoded(content):
    return base64.b64encode(content).decode()


class Texts:
    """How values and times are spelled: by themselves, or with values that a stream hides."""

    def __init__(self, stream=None):
        self.stream = stream

    def hidden(self, text):
        if self.stream is None:
            return f'<Value ProtectInMemory="True">{text}</Value>'
        return f'<Value Protected="True">{encoded(self.stream(text.encode()))}</Value>'

    def times(self, year):
        if self.stream is None:
            return TIMES.format(f"{year}-01-02T03:04:05Z")
        return TIMES.format(encoded((86400 * 365 * year).to_bytes(8, "little")))

    def string(self, key, text, hidden=False):
        return f"<String><Key>{key}</Key>{self.hidden(text) if hidden else f'<Value>{text}</Value>'}</String>"


def document(stream=None, header_hash=None, pooled=True, secrets=(HIDDEN, OLD, NOTES), attached=ATTACHED):
    """The text of a document: two entries, one with a history and an attachment, and two groups. Where nothing is pooled outside of it, its
    attachment is in it."""
    texts = Texts(stream)
    hidden, old, notes = secrets
    meta = "<Generator>a test</Generator>" + (f"<HeaderHash>{encoded(header_hash)}</HeaderHash>" if header_hash else "")
    if not pooled:
        meta += f'<Binaries><Binary ID="0">{encoded(attached)}</Binary></Binaries>'
    return f"""<KeePassFile><Meta>{meta}</Meta><Root><Group><UUID>{IDS[1]}</UUID><Name>Root</Name>{texts.times(2020)}
<Entry><UUID>{IDS[2]}</UUID>{texts.times(2021)}{texts.string("Title", TITLE)}{texts.string("UserName", USER)}
{texts.string("Password", hidden, True)}{texts.string("Notes", notes)}<Binary><Key>a.txt</Key><Value Ref="0"/></Binary>
<History><Entry><UUID>{IDS[2]}</UUID>{texts.times(2020)}{texts.string("Title", TITLE)}{texts.string("Password", old, True)}</Entry></History></Entry>
<Group><UUID>{IDS[3]}</UUID><Name>Work</Name><Entry><UUID>{IDS[4]}</UUID>{texts.string("Title", "Mail")}</Entry></Group>
<Group><UUID>{IDS[5]}</UUID><Name>Empty</Name></Group></Group></Root></KeePassFile>
""".encode()


def sealed(version, cipher="aes", key=None, lengths=(), attached=ATTACHED, **more):
    """A database of the document, whose first blocks have these lengths."""
    def write(stream, header_hash):
        return document(stream, header_hash, header_hash is None, attached=attached, **more), [(attached, 0)]

    return sealing.sealed(write, cipher, version, key or sealing.composite(PASSWORD), lengths)


def plain(**more):
    return document(pooled=False, **more)


def safe(password=PASSWORD, notes=NOTES, rest=b""):
    """A file of Password Safe with two records and one iteration, and what comes after it."""
    stamp = psafe.moment(1_600_000_000)
    pieces = [*psafe.HEADER,
              *psafe.record((psafe.UUID, bytes([2]) * 16), (psafe.MODIFIED, stamp), group="Work", title=TITLE, user=USER, password=HIDDEN),
              *psafe.record((psafe.UUID, bytes([3]) * 16), title="Mail", password=OLD, notes=notes)]
    return psafe.file_of(pieces, password.encode(), 1, rest=rest)


TABLE = f'''Group,Title,Username,Password,URL,Notes,Last Modified,Created
Root/Work,"{TITLE}",{USER},{HIDDEN},https://bank.example,"{NOTES},
on two lines",2021-01-02T03:04:05Z,2020-01-02T03:04:05Z
Root,Mail,"{USER} ""the first""",{OLD},,,,
'''.encode()


def key_file():
    """A key file, its key 32 bytes of counting up, with the first bytes of the key's hash."""
    key = bytes(range(32))
    kept = hashlib.sha256(key).hexdigest()[:8]
    return f"""<?xml version="1.0" encoding="utf-8"?>
<KeyFile><Meta><Version>2.0</Version></Meta><Key><Data Hash="{kept}">
{key.hex()}
</Data></Key></KeyFile>
""".encode(), key
