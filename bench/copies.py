"""Databases that are two copies of one, whose entries were changed since, for bench/merge and bench/memory. They are written by
tests/moving/sealing.py, which takes the ciphers of Debian's `python3-pycryptodome`."""
import base64, datetime, os, sys

sys.dont_write_bytecode = True
sys.path.insert(0, os.path.join(os.path.dirname(os.path.abspath(__file__)), "..", "tests", "moving"))
import sealing

GROUPS, START = 12, datetime.datetime(2020, 1, 1)
NOTES = "vault key of the café, größer &amp; &lt;new&gt; “quoted” word in a note that goes on"


def name(number):
    return base64.b64encode(number.to_bytes(16, "big")).decode()


def time(days):
    seconds = int((START - datetime.datetime(1, 1, 1)).total_seconds()) + 86400 * days
    return base64.b64encode(seconds.to_bytes(8, "little")).decode()


class Text:
    """The text of a copy of a database: the changes of copy 0 and 1 overlap in a sixth of the entries."""

    def __init__(self, entries, items, copy, stream):
        self.items, self.copy, self.stream = items, copy, stream
        self.days = [time(day) for day in range(entries + 40 * (items + 3))]
        groups = "".join(self.group(number, range(number, entries, GROUPS)) for number in range(GROUPS))
        self.bytes = ('<?xml version="1.0" encoding="utf-8"?>\n<KeePassFile><Meta><DatabaseName>Family</DatabaseName></Meta><Root><Group>'
                      f"<UUID>{name(1)}</UUID><Name>Root</Name>{groups}</Group></Root></KeePassFile>").encode()

    def group(self, number, entries):
        return f"<Group><UUID>{name(100 + number)}</UUID><Name>Group {number}</Name>{''.join(map(self.entry, entries))}</Group>"

    def entry(self, number):
        changed = number % 6 in ((0, 1), (1, 2))[self.copy]
        current = self.items + changed
        # The values of the current version stand before those of its history, and are hidden in this order.
        front = self.version(number, current)
        history = "".join(self.version(number, item) + "</Entry>" for item in range(current))
        return f"{front}<History>{history}</History></Entry>"

    def version(self, number, item):
        """A version up to its end; the one after the items that both copies have is the copy's own."""
        day = number + 30 * item + (10 * self.copy if item > self.items else 0)
        hidden = base64.b64encode(self.stream(f"secret {number} {item} {self.copy if item > self.items else ''}".encode())).decode()
        fields = {"Title": f"Entry {number} – é", "UserName": f"user{number}@mail.example", "URL": f"https://host{number}.example/?a=1&amp;b=2",
                  "Notes": f"{NOTES} {item}"}
        strings = "".join(f"<String><Key>{key}</Key><Value>{value}</Value></String>" for key, value in fields.items())
        return (f"<Entry><UUID>{name(1000 + number)}</UUID><IconID>0</IconID><ForegroundColor></ForegroundColor><BackgroundColor></BackgroundColor>"
                f"<OverrideURL></OverrideURL><Tags></Tags><Times><LastModificationTime>{self.days[day]}</LastModificationTime>"
                f"<CreationTime>{self.days[0]}</CreationTime><LastAccessTime>{self.days[day]}</LastAccessTime><ExpiryTime>{self.days[0]}</ExpiryTime>"
                f"<Expires>False</Expires><UsageCount>0</UsageCount><LocationChanged>{self.days[0]}</LocationChanged></Times>"
                f'<String><Key>Password</Key><Value Protected="True">{hidden}</Value></String>{strings}'
                "<AutoType><Enabled>True</Enabled><DataTransferObfuscation>0</DataTransferObfuscation><DefaultSequence></DefaultSequence></AutoType>")


def made(path, entries, items, copy):
    """Writes a copy under the password `family`. What a process takes counts as the memory of the programs that it starts, so this is called
    in one of its own."""
    key = sealing.composite("family")
    data = sealing.sealed(lambda stream, _: (Text(entries, items, copy, stream).bytes, {}), composite_key=key)
    with open(path, "wb") as file:
        file.write(data)
