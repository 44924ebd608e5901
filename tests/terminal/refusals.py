"""The refusals that are typed at a pseudo-terminal: `files(folder, data, examples)` makes the files that they name, and
`ROWS` has a row for each call: (words, what is typed at its questions, status, TEXT of the line, its hints).

In the words, the text and the hints a name in capitals as FAST stands for a file of NAMES. Of the texts, `*` stands for
what is not compared here, since the tests of the program do."""
import fcntl, hashlib, os, re, struct, sys

sys.path.insert(0, os.path.join(os.path.dirname(os.path.dirname(os.path.abspath(__file__))), "importing"))
import psafe

PASSWORD = "one two three é"
NAMES = {}


def header_end(data):
    """The length of the header of a KDBX 4 file."""
    place = 12
    while True:
        kind, length = data[place], struct.unpack_from("<I", data, place + 1)[0]
        place += 5 + length
        if kind == 0:
            return place


def with_header(data, change):
    """A KDBX 4 file with another header, which has its right hash again."""
    end = header_end(data)
    header = change(data[:end])
    return header + hashlib.sha256(header).digest() + data[end + 32:]


def dictionary_item(kind, name, value):
    return bytes([kind]) + struct.pack("<I", len(name)) + name + struct.pack("<I", len(value)) + value


def with_number(data, name, number):
    """A KDBX 4 file whose key derivation has this number, of eight bytes."""
    pattern = re.compile(re.escape(dictionary_item(5, name, b"12345678")[:-8]) + b".{8}", re.S)
    return with_header(data, lambda header: pattern.sub(lambda found: found.group()[:-8] + struct.pack("<Q", number), header))


def xml(inside, meta=""):
    return f"<KeePassFile><Meta>{meta}</Meta><Root>{inside}</Root></KeePassFile>".encode()


def node_id(number):
    import base64
    return base64.b64encode(bytes([number]) * 16).decode()


def group(number, name, inside="", moved=""):
    times = f"<Times><LocationChanged>{moved}</LocationChanged></Times>" if moved else ""
    return f"<Group><UUID>{node_id(number)}</UUID><Name>{name}</Name>{times}{inside}</Group>"


def entry(number, title, inside=""):
    return f"<Entry><UUID>{node_id(number)}</UUID><String><Key>Title</Key><Value>{title}</Value></String>{inside}</Entry>"


def files(folder, data, examples):
    """Makes the files in a folder and names them."""
    def made(name, file, content):
        NAMES[name] = f"{folder}/{file}"
        with open(NAMES[name], "wb") as out:
            out.write(content)

    def read(path):
        with open(path, "rb") as file:
            return file.read()

    fast = read(f"{data}/file-kdbx-chacha20-aeskdf.kdbx")
    argon = read(f"{data}/keepassxc-aes-argon2d.kdbx")
    old = read(f"{data}/keepass2-3.1-aes.kdbx")
    safe = read(f"{data}/gorilla.psafe3")
    family = read(f"{examples}/family.xml")
    end = header_end(fast)
    made("FAST", "fast.kdbx", fast)
    made("COPY", "copy.kdbx", fast)
    made("OLD", "old.kdbx", old)
    made("ARGON", "argon.kdbx", argon)
    made("LATER", "later.kdbx", read(f"{data}/keepassxc-4.1-aes-argon2d.kdbx"))
    made("SAFE", "safe.psafe3", safe)
    made("PLAIN", "family.xml", family)
    made("SPACED", "my vault.xml", family)
    made("KEYED", "keyed.kdbx", read(f"{data}/keepassxc-twofish-aeskdf.kdbx"))
    made("KEY", "one.key", read(f"{data}/key-1.key"))
    made("OTHERKEY", "other.key", b"other")
    made("BADKEY", "bad.keyx", read(f"{data}/key-2.keyx").replace(b"5901B564", b"5901B565"))
    made("BROKENKEY", "broken.key", read(f"{data}/key-1.key").replace(b"<Data>", b"<Data>!", 1))
    made("COMPRESSED", "compressed.kdbx", read(f"{data}/keepassxc-compressed.kdbx"))
    made("HEADER", "header.kdbx", fast[:20] + bytes([fast[20] ^ 1]) + fast[21:])
    made("BLOCK", "block.kdbx", fast[:-40] + bytes([fast[-40] ^ 1]) + fast[-39:])
    made("CUT", "cut.kdbx", fast[:300])
    made("HEAD", "head.kdbx", fast[:30])
    made("VERSION", "version.kdbx", fast[:8] + struct.pack("<I", 0x50000) + fast[12:])
    made("MEMORY", "memory.kdbx", with_number(argon, b"M", 2 << 30))
    made("ROUNDS", "rounds.kdbx", with_number(fast, b"R", 1 << 33))
    cipher = bytes.fromhex("d6038a2b8b6f4cb5a524339a31dbb59a")
    made("CIPHER", "cipher.kdbx", with_header(fast, lambda header: header.replace(cipher, b"x" * 16)))
    made("VARIANT", "variant.kdbx", with_header(argon, lambda header: header.replace(dictionary_item(4, b"V", b"\x13\0\0\0"), dictionary_item(4, b"V", b"\x10\0\0\0"))))
    made("KDB", "old.kdb", bytes.fromhex("03d9a29a65fb4bb5") + bytes(200))
    made("NOTES", "notes.txt", b"milk, bread\n")
    # A comment in the header, which the document's own hash of it does not know.
    made("OLDHEADER", "oldheader.kdbx", old[:12] + b"\x01\x01\x00x" + old[12:])
    made("SAFEMAC", "safemac.psafe3", safe[:-1] + bytes([safe[-1] ^ 1]))
    record = psafe.record((psafe.UUID, b"1" * 16), title="Bank")
    made("SAFETWICE", "safetwice.psafe3", psafe.file_of(psafe.HEADER + record + record))
    made("SAFENIL", "safenil.psafe3", psafe.file_of(psafe.HEADER + psafe.record((psafe.UUID, bytes(16)), title="Bank")))
    made("SAFEFIELD", "safefield.psafe3", psafe.file_of(psafe.HEADER + psafe.record((psafe.TITLE, b"\xff"))))
    made("SAFEMANY", "safemany.psafe3", safe[:36] + struct.pack("<I", psafe.ITERATIONS + 1) + safe[40:])
    made("LONGLINE", "longline", b"x" * 5000 + b"\n")
    made("LANES", "lanes.kdbx", with_header(argon, lambda header: re.sub(re.escape(dictionary_item(4, b"P", b"1234")[:-4]) + b".{4}",
                                            dictionary_item(4, b"P", struct.pack("<I", 1025)), header, flags=re.S)))
    made("LOCKED", "locked.xml", family)
    os.chmod(NAMES["LOCKED"], 0)
    made("HELD", "held.xml", family)
    # The lock of another call, which it holds from before it reads until it has written.
    NAMES["lock"] = open(NAMES["HELD"], "rb")
    fcntl.flock(NAMES["lock"], fcntl.LOCK_EX)
    made("CUTXML", "cut.xml", family[:300])
    made("DEEP", "deep.xml", b"<a>" * 300)
    made("NILID", "nil.xml", xml(group(0, "Root")))
    made("NOBINARY", "nobinary.xml", xml(group(1, "Root", entry(2, "Bank", "<Binary><Key>a</Key><Value Ref=\"7\"/></Binary>"))))
    made("PACKED", "packed.xml", xml(group(1, "Root"), "<Binaries><Binary ID=\"0\" Compressed=\"True\">H4sI</Binary></Binaries>"))
    made("LATIN", "latin.csv", "Title\nMüller\n".encode("latin-1"))
    made("NOTITLE", "notitle.csv", b"group,notes\na,b\n")
    made("BADROW", "badrow.csv", b"Title,URL\na,b\nc\n")
    made("TABLE", "table.csv", b"Title\nBank\n")
    made("LOCKEDEXPORT", "locked.json", b'{"encrypted": true, "data": "2.a|b|c"}')
    made("BADFOLDER", "folder.json", b'{"folders": [{"id": "1"}]}')
    made("BADITEM", "item.json", b'{"items": [{"name": "a"}, {"folderId": "1"}]}')
    identity = "05050505-0505-0505-0505-050505050505"
    made("ITEMTWICE", "twice.json", ('{"items": [{"id": "' + identity + '"}, {"id": "' + identity + '"}]}').encode())
    made("ITEMNIL", "nil.json", ('{"items": [{"id": "' + identity.replace("5", "0") + '"}]}').encode())
    made("ONE", "one.xml", xml(group(1, "Root", entry(2, "Bank"))))
    made("TWO", "two.xml", xml(group(1, "Root", group(2, "Bank"))))
    early, late = "2026-01-01T00:00:00Z", "2026-01-02T00:00:00Z"
    made("CROSS1", "cross1.xml", xml(group(1, "Root", group(2, "Work", group(3, "School", moved=late), moved=early))))
    made("CROSS2", "cross2.xml", xml(group(1, "Root", group(3, "School", group(2, "Work", moved=late), moved=early))))
    NAMES["FOLDER"] = f"{folder}/folder"
    os.mkdir(NAMES["FOLDER"])
    NAMES["PIPE"] = f"{folder}/pipe"
    os.mkfifo(NAMES["PIPE"])
    made("LARGE", "large.kdbx", b"")
    os.truncate(NAMES["LARGE"], 134217729)
    made("HUGE", "huge", b"")
    os.truncate(NAMES["HUGE"], 134217728)
    made("ATTACHED", "attached.xml", xml(group(1, "Root", entry(2, "Bank", "<Binary><Key>a</Key><Value>YWJj</Value></Binary>"))))
    NAMES["FRESH"] = f"{folder}/new.kdbx"
    NAMES["NONE"] = f"{folder}/nothing-like-it"
    NAMES["NEAR"] = f"{folder}/fsat.kdbx"
    # Names of which the ending, one letter or half of the stem alone is that of a file that is there, and two of which more is.
    made("ONELETTER", "x.kdbx", fast)
    NAMES["LETTER"] = f"{folder}/y.kdbx"
    NAMES["HALF"] = f"{folder}/faxx.kdbx"
    NAMES["OTHERENDED"] = f"{folder}/mine.kdbx"
    NAMES["UNENDED"] = f"{folder}/fast"
    NAMES["LATERKDB"] = f"{folder}/latr.kdb"
    NAMES["FAR"] = f"{folder}/no/such/new.xml"
    NAMES["FARFOLDER"] = f"{folder}/no/such/"


LIST = "keepass --help lists them"
SHOW = "show DATABASE ENTRY"
PATHS = "keepass ls -Rf {0} lists the paths; a path is whole, and case counts; one with / at its end is a group's, and ls lists groups"
WRONG = "wrong password, or {0} needs a key file too: -k FILE. If both are right, the {1} was changed: use a backup"
WRONG_MERGE = ("wrong password (with -s the sources have that of TARGET), or {0} needs a key file too: -k FILE if it is TARGET, "
               "--key-file-from FILE if it is a source. If both are right, the {1}: use a backup")
MAKE_KEY = "check the name, and the folder that the call was made in; a new key file is made first: head -c 32 /dev/urandom >FILE"
BACKUP = "the password is right, and the file is damaged: use a backup"
MALFORMED = "{0} is malformed: open it in the program that wrote it and save it again, or use a backup"

ROWS = [
    # Words, as one may remember them from keepassxc-cli, and wrong ones of every kind.
    ("locate FAST mail", [], 1, "wrong words", ["unknown command 'locate': 'search' finds entries"]),
    ("lst FAST", [], 1, "wrong words", [f"unknown command 'lst'; did you mean 'ls'?; {LIST}"]),
    ("frobnicate FAST", [], 1, "wrong words", [f"unknown command 'frobnicate'; {LIST}"]),
    ("diceware", [], 1, "wrong words", ["unknown command 'diceware': 'generate' makes passwords, of characters and not of words"]),
    ("generate --every-group", [], 1, "wrong words", ["generate takes no option '--every-group': each character is chosen by itself: choose a longer password"]),
    ("generate -L 0", [], 1, "wrong words", ["unknown length '0': 1 to 4096"]),
    ("generate -n -x 0123456789", [], 1, "wrong words", ["no characters are left: --exclude has all of them"]),
    ("generate FAST", [], 1, "wrong words", ["one word too many: 'FAST'; generate takes only options"]),
    ("selftest 0", [], 1, "wrong words", ["unknown number of entries '0': 1 to 50000"]),
    ("selftest -q 7", [], 1, "wrong words", ["selftest takes no option '-q'; keepass selftest --help lists its options"]),
    ("create -p FRESH", [], 1, "wrong words", ["unknown command 'create': 'db-create' makes an empty database, 'import' one of another file"]),
    ("passwd FAST", [], 1, "wrong words", ["unknown command 'passwd': 'db-edit -p' gives a database another password"]),
    ("edit-db -p FAST", [], 1, "wrong words", ["unknown command 'edit-db': 'db-edit' changes a file's key or settings"]),
    ("db-create -p -t 1000 FRESH", [], 1, "wrong words",
     ["db-create takes no option '-t': costs are given as numbers: --kdf KDF --rounds NUMBER --memory KIB --lanes NUMBER"]),
    ("db-create -k KEY FRESH", [], 1, "wrong words", ["db-create takes no option '-k': a new database gets a key file by --set-key-file FILE"]),
    ("db-create -p --version 4.1 FRESH", [], 1, "wrong words",
     ["db-create takes no option '--version': a new file is KDBX 4.0; 'db-edit --version' gives it another version"]),
    ("import -p --version 4.0 PLAIN FRESH", [], 1, "wrong words",
     ["import takes no option '--version': a new file is KDBX 4.0, or 4.1 where that is needed; 'db-edit --version' gives it another version"]),
    ("totp FAST Bank", [], 1, "wrong words", ["unknown command 'totp': 'show -t' shows a one-time code"]),
    ("version", [], 1, "wrong words", ["unknown command 'version': keepass --version prints the version"]),
    ("db-create FRESH", [], 1, "wrong words", ["db-create needs a key for the new database: -p, --set-key-file FILE, or --plain for none"]),
    ("db-create --plain -p FRESH", [], 1, "wrong words", ["'--set-password' does not go with '--plain': an XML export has no key"]),
    ("db-create -p --lanes 4 FRESH", [], 1, "wrong words", ["'--lanes' needs '--kdf'"]),
    ("db-edit --plain -p PLAIN", [], 1, "wrong words", ["db-edit takes no option '--plain': an XML export has neither a key nor settings"]),
    ("db-edit FAST", [], 1, "wrong words", ["nothing to change: give another key, --cipher, --kdf or --version"]),
    ("db-edit -k KEY FAST", [], 1, "wrong words", ["nothing to change: --set-key-file sets a key file, -k only opens with one"]),
    ("db-edit -p --unset-password FAST", [], 1, "wrong words", ["'--set-password' does not go with '--unset-password'"]),
    ("db-edit --unset-password FAST", [], 1, "wrong words", ["no key is left: a database needs a password or a key file"]),
    ("db-edit --kdf argon2 FAST", [], 1, "wrong words", ["unknown key derivation 'argon2': aes or argon2d or argon2id"]),
    ("db-edit --kdf aes --memory 65536 FAST", [], 1, "wrong words", ["'--memory' needs '--kdf argon2d' or '--kdf argon2id'"]),
    ("db-edit --kdf argon2id --memory 64M FAST", [], 1, "wrong words",
     ["'--memory' needs a number of KiB, as 65536 for 64 MiB, in one to ten digits: '64M'"]),
    ("db-create -p --kdf argon2d --lanes two FRESH", [], 1, "wrong words", ["'--lanes' needs a number of lanes, in one to ten digits: 'two'"]),
    ("-v", [], 1, "wrong words", ["a command comes first, before '-v'; keepass --version prints the version"]),
    ("-version", [], 1, "wrong words", ["a command comes first, before '-version'; keepass --version prints the version"]),
    ("quit", [], 1, "wrong words", ["unknown command 'quit': it ends a session, which 'keepass open DATABASE' opens"]),
    ("analyze FAST", [], 1, "wrong words", ["unknown command 'analyze': keepass has no such command"]),
    ("attach FAST Bank", [], 1, "wrong words", ["unknown command 'attach': 'attachment-import' attaches a file to an entry"]),
    ("attachment-export FAST Bank a", [], 1, "wrong words", ["attachment-export needs FILE or --stdout"]),
    ("attachment-export -f FAST Bank a FRESH", [], 1, "wrong words",
     ["attachment-export takes no option '-f': a file that is there is never overwritten: choose another name"]),
    ("add --set PIN FAST New", [], 1, "wrong words", ["add takes no option '--set': 'edit --set' gives an entry a field of its own"]),
    ("edit --set Title FAST Bank", [], 1, "wrong words", ["'--set' does not take 'Title': -t gives another title"]),
    ("edit --expires tomorrow FAST Bank", [], 1, "wrong words", ["'--expires' needs a time as 2027-01-31T00:00:00Z, or never: 'tomorrow'"]),
    ("ls --recurse FAST", [], 1, "wrong words", ["ls takes no option '--recurse'; did you mean '--recursive'?"]),
    ("ls -R -R FAST", [], 1, "wrong words", ["'--recursive' is given twice"]),
    ("ls -R=yes FAST", [], 1, "wrong words", ["'-R' takes no value"]),
    ("ls -Rz FAST", [], 1, "wrong words", ["ls takes no option '-z'; keepass ls --help lists its options"]),
    ("ls --recursive=yes FAST", [], 1, "wrong words", ["'--recursive' takes no value"]),
    ("ls", [], 1, "wrong words", ["ls needs DATABASE [GROUP]"]),
    ("ls FAST Work Mail", [], 1, "wrong words", ["one word too many: 'Mail'; ls takes DATABASE [GROUP]"]),
    ("ls -f --plain -k KEY PLAIN", [], 1, "wrong words", ["'--key-file' does not go with '--plain': an XML export has no key"]),
    ("ls --no-password FAST", [], 1, "wrong words", ["'--no-password' needs a key file: -k FILE"]),
    ("show FAST", [], 1, "wrong words", ["show needs DATABASE ENTRY"]),
    ("show -t --all FAST Bank", [], 1, "wrong words", ["'--totp' does not go with '--all'"]),
    ("clip --totp FAST Bank", [], 1, "wrong words", ["clip takes no option '--totp': 'show -t' shows a one-time code"]),
    ("show -y 1 FAST Bank", [], 1, "wrong words", ["show takes no option '-y': there is no challenge and response"]),
    ("add -g -p FAST Bank", [], 1, "wrong words", ["'--generate' does not go with '--password-prompt'"]),
    ("add -L 8 FAST Bank", [], 1, "wrong words", ["'--length' needs '--generate'"]),
    ("add -pu me FAST Bank", [], 1, "wrong words", ["'-u' has a value and needs its own hyphen"]),
    ("add --notes -milk FAST Bank", [], 1, "wrong words",
     ["'--notes' needs a value; one that begins with - is joined to it: --notes=VALUE"]),
    ("add FAST Bank --username", [], 1, "wrong words", ["'--username' needs a value"]),
    ("edit FAST Bank", [], 1, "wrong words", ["nothing to change: give -t, -u, --url, --notes, -p, -g, --otp, --set, --unset, --tag, --untag or --expires"]),
    ("mv FAST Bank", [], 1, "wrong words", ["mv needs DATABASE NODE GROUP"]),
    ("merge FAST", [], 1, "wrong words", ["merge needs TARGET SOURCE..."]),
    ("merge -s FAST" + " COPY" * 17, [], 1, "wrong words", ["a merge has at most 16 sources: merge the others in a second call"]),
    ("merge -s --key-file-from KEY FAST COPY", [], 1, "wrong words", ["'--key-file-from' does not go with '--same-credentials'"]),
    ("merge --no-password-from FAST COPY", [], 1, "wrong words", ["'--no-password-from' needs '--key-file-from FILE'"]),
    ("import PLAIN FRESH", [], 1, "wrong words", ["import needs a key for the new database: -p, --set-key-file FILE, or --plain for none"]),
    ("import --plain -p PLAIN FRESH", [], 1, "wrong words",
     ["'--set-password' does not go with '--plain': an XML export has no key"]),
    ("import --plain --set-key-file KEY PLAIN FRESH", [], 1, "wrong words", ["'--set-key-file' does not go with '--plain': an XML export has no key"]),
    ("merge --plain -s PLAIN SPACED", [], 1, "wrong words", ["'--same-credentials' does not go with '--plain': an XML export has no key"]),
    ("ls -RR FAST", [], 1, "wrong words", ["a flag of '-RR' is given twice"]),
    ("ls --recursive --recursive FAST", [], 1, "wrong words", ["'--recursive' is given twice"]),
    ("ls -é FAST", [], 1, "wrong words", ["ls takes no option '-é'; keepass ls --help lists its options"]),
    ("ls --zebra -R -R FAST", [], 1, "wrong words", ["ls takes no option '--zebra'; keepass ls --help lists its options"]),
    ("import --format chrome -p PLAIN FRESH", [], 1, "wrong words", ["unknown format 'chrome': xml or psafe3 or csv or bitwarden"]),
    ("export -f yaml FAST", [], 1, "wrong words", ["unknown format 'yaml': xml or csv"]),
    ("clip FAST", [], 1, "wrong words", ["clip needs DATABASE ENTRY [FIELD]"]),
    ("clip -t soon FAST Bank", [], 1, "wrong words", ["'-t' takes a number of seconds"]),
    ("export FAST", [], 1, "every password would stand on the screen",
     ["send it to a file: keepass export FAST >FILE; or give - after DATABASE to see it here"]),
    ("db-edit --set-key-file FAST FAST", [], 1, "a database cannot be its own key file",
     ["its bytes are others once it is written, and nothing would open it: choose a file that stays as it is"]),
    ("ls --plain \udcff", [], 1, "not UTF-8", ["the words of a call are UTF-8: choose a UTF-8 locale, or rename the file"]),
    ("search --plain PLAIN +", [], 1, "empty term at *",
     ["a term has a text after its sign or its field; keepass ls -Rf --plain PLAIN lists everything"]),

    ("FAST ls", [], 1, "wrong words", [f"a command comes first, before 'FAST', as ls or show; {LIST}"]),
    ("-R ls FAST", [], 1, "wrong words", [f"a command comes first, before '-R'; {LIST}"]),
    ("clip -a UserName FAST Bank", [], 1, "wrong words", ["clip takes no option '-a': the field is the third position: clip DATABASE ENTRY FIELD"]),
    ("rm -r FAST Work", [], 1, "wrong words", ["rm takes no option '-r': 'rmdir' removes groups"]),
    ("import -k KEY PLAIN FRESH", [], 1, "wrong words", ["import takes no option '-k': a new database gets a key file by --set-key-file FILE"]),
    ("export -o FRESH FAST", [], 1, "wrong words", ["export takes no option '-o': the output goes to a file by >FILE"]),

    # What is not there, is there already, or is not allowed.
    ("show FAST Mial", [PASSWORD], 2, "not found", [PATHS.format("FAST")]),
    ("show --plain SPACED Mial", [], 2, "not found", [PATHS.format("--plain SPACED")]),
    ("show -k KEY KEYED Wrok/x", [PASSWORD], 2, "not found", [PATHS.format("-k KEY KEYED")]),
    ("ls --plain PLAIN Bank", [], 2, "not found", ["ls lists groups, and show shows an entry; keepass ls -R --plain PLAIN lists everything; case counts"]),
    ("rmdir --plain PLAIN Bank", [], 2, "not found", ["rmdir removes groups, and rm entries; keepass ls -R --plain PLAIN lists everything; case counts"]),
    ("add --plain PLAIN Home/Wifi", [], 2, "not found",
     ["keepass mkdir --plain PLAIN GROUP makes the group first; keepass ls -R --plain PLAIN lists all"]),
    ("rm --plain PLAIN Work", [], 2, "not found",
     ["keepass ls -Rf --plain PLAIN lists the paths; one with / at its end is a group's, and rmdir removes groups; case counts"]),
    ("rm --plain PLAIN Work/", [], 2, "not found", ["a path that ends with / is a group's, and rmdir removes groups"]),
    ("mv --plain PLAIN Bank Home", [], 2, "not found",
     ["keepass ls -Rf --plain PLAIN lists the paths; a group's has a / at its end as NODE; case counts"]),
    ("mkdir --plain PLAIN Home/Cellar", [], 2, "not found",
     ["the groups before the last / must be there: make them first; keepass ls -R --plain PLAIN lists all"]),
    ("add --plain PLAIN Bank", [], 2, "already there",
     ["edit changes an entry that is there; an entry of the same title needs another group"]),
    ("mkdir --plain PLAIN Work", [], 2, "already there", ["something has this path; keepass ls -Rf --plain PLAIN lists the paths"]),
    ("attachment-import --plain ATTACHED Bank a NOTES", [], 2, "already there",
     ["the entry has an attachment of this name: -f replaces it, and another NAME keeps both"]),
    ("attachment-export --plain --stdout ATTACHED Bank A", [], 2, "no attachment A",
     ["keepass show --show-attachments --plain ATTACHED Bank lists the names; they are compared letter by letter"]),
    ("attachment-export FAST Bank a NOTES", [], 2, "file exists", ["attachment-export makes new files alone: choose another name, or --stdout"]),
    ("edit --plain --unset PIN PLAIN Bank", [], 2, "no attribute PIN",
     ["--unset takes a field that the entry has before the edit; keepass show --all --plain PLAIN Bank shows the names, which are compared letter by letter"]),
    ("mv --plain PLAIN Bank /", [], 2, "already in that group", ["nothing is to be done; GROUP is the path of another group"]),
    ("mv --plain PLAIN Work/ Work", [], 2, "* into itself", ["a group cannot go into itself or into a group inside it"]),
    ("rmdir --plain PLAIN /", [], 2, "the root stays", ["the root group can be neither moved nor removed; its path is empty or /"]),
    ("show -a password FAST Bank", [PASSWORD], 2, "no attribute password",
     ["keepass show --all FAST Bank shows the names; they are compared letter by letter, as in Password, UserName, URL"]),
    ("show --at 7 FAST Bank", [PASSWORD], 2, "no version 7", ["keepass history FAST Bank lists the versions; 0 is the current one"]),
    ("edit --plain --restore 7 PLAIN Bank", [], 2, "no version 7",
     ["keepass history --plain PLAIN Bank lists the versions; 0 is the current one"]),
    ("show --plain -t PLAIN Bank", [], 2, "no one-time code",
     ["keepass edit --otp --plain PLAIN Bank gives it one, from a line that is an otpauth URI"]),
    ("search --plain PLAIN zebra", [], 2, "no results",
     ["a term is a part of title, user name, URL, notes or tags, and all must match; keepass ls -Rf --plain PLAIN lists everything"]),
    ("import -p TABLE FAST", [], 2, "file exists", ["import makes new files alone: choose another name, or merge into the file that is there"]),
    ("db-create -p FAST", [], 2, "file exists",
     ["db-create makes new files alone: choose another name, or change the key of the file that is there by db-edit"]),
    ("db-create -p --set-key-file NONE FAST", [], 2, "file exists", None),
    ("db-edit --version 3.1 ARGON", [PASSWORD], 2, "needs version 4.0", ["Argon2 came with KDBX 4.0: leave --version out, or give --kdf aes besides"]),
    ("db-edit --version 3.1 --kdf argon2id OLD", [PASSWORD], 2, "needs version 4.0", ["Argon2 came with KDBX 4.0: leave --version out, or give --kdf aes besides"]),
    ("db-edit --version 3.1 FAST", [PASSWORD], 2, "needs version 4.0",
     ["public data of the header and items of groups and entries, which came with KDBX 4.0, are in FAST: leave --version out"]),
    ("db-edit --version 4.0 LATER", [PASSWORD], 2, "needs version 4.1",
     ["what came with KDBX 4.1 is in LATER, as the group that a moved entry came from or a group's tags: leave --version out"]),

    # Wrong keys and damage.
    ("ls FAST", ["wrong"], 3, "damaged or wrong key: *", [WRONG.format("FAST", "header")]),
    ("ls -k OTHERKEY FAST", [PASSWORD], 3, "damaged or wrong key: *",
     ["wrong password or wrong key file. If both are right, the header was changed: use a backup"]),
    ("ls KEYED", [PASSWORD], 3, "damaged or wrong key: *", [WRONG.format("KEYED", "header")]),
    ("merge -d FAST COPY", [PASSWORD, "wrong"], 3, "damaged or wrong key: *", [WRONG_MERGE.format("COPY", "header was changed")]),
    ("merge -s FAST KEYED", [PASSWORD], 3, "damaged or wrong key: *", [WRONG_MERGE.format("KEYED", "header was changed")]),
    ("merge FAST OLD", [PASSWORD, "wrong"], 3, "wrong key or damaged", [WRONG_MERGE.format("OLD", "file is damaged")]),
    ("ls OLD", ["wrong"], 3, "wrong key or damaged",
     ["wrong password, or OLD needs a key file too: -k FILE. If both are right, the file is damaged: use a backup"]),
    ("ls HEADER", [PASSWORD], 3, "damaged or wrong key: *", ["the header is damaged, whatever the password: use a backup"]),
    ("ls OLDHEADER", [PASSWORD], 3, "damaged or wrong key: *", ["the password is right, and the header was changed or damaged: use a backup"]),
    ("ls -k KEY OLD", [PASSWORD], 3, "wrong key or damaged",
     ["wrong password or wrong key file. If both are right, the file is damaged: use a backup"]),
    ("ls -k BADKEY FAST", [PASSWORD], 3, "key file: *", ["the key file is damaged: use a copy of it"]),
    ("ls BLOCK", [PASSWORD], 3, "damaged block *", [BACKUP]),
    ("import --plain --format psafe3 SAFE FRESH", ["wrong"], 3, "wrong password", ["type the password of the file of Password Safe again"]),
    ("import --plain --format psafe3 SAFEMAC FRESH", ["correct horse"], 3, "damaged or wrong key: *",
     ["the password is right, and the file was changed or damaged: use a backup"]),

    # Malformed files and texts.
    ("edit --plain --otp PLAIN Bank", ["nonsense"], 4, "bad one-time code at *",
     ["a one-time code is made from a URI such as otpauth://totp/NAME?secret=SECRET, with the secret in base32; the number is where it goes wrong"]),
    ("ls PLAIN", ["x"], 4, "not a KDBX file", ["an XML export is opened with --plain"]),
    ("ls SAFE", ["x"], 4, "not a KDBX file", ["a file of Password Safe: keepass import --format psafe3 -p SAFE NEW.kdbx makes a database of it"]),
    ("ls KDB", ["x"], 4, "not a KDBX file",
     ["a database of KeePass 1: import it in KeePassXC or KeePass 2, and save it as KDBX 4 without compression"]),
    ("ls NOTES", ["x"], 4, "not a KDBX file", ["NOTES is no database of KeePass: check the name"]),
    ("ls CUT", [PASSWORD], 4, "ends early at *", ["CUT is cut off at this byte: copy it again, or use a backup"]),
    ("ls --plain FAST", [], 4, "malformed text at *", ["FAST is a database and no XML export: leave --plain out"]),
    ("ls --plain CUTXML", [], 4, "malformed text at *", ["the XML is cut off or broken at this byte: export it again, or use a backup"]),
    ("import --plain FAST FRESH", [], 4, "malformed text at *",
     ["FAST is a database already: import takes an XML export, a file of Password Safe 3, a table or an export of Bitwarden"]),
    ("import --plain SAFE FRESH", [], 4, "malformed text at *", ["a file of Password Safe: give --format psafe3"]),
    ("import --plain TABLE FRESH", [], 4, "malformed text at 0", ["TABLE is no XML export; --format says what it is: xml, psafe3, csv or bitwarden"]),
    ("ls --plain NILID", [], 4, "nil id at *", [MALFORMED.format("NILID")]),
    ("ls --plain NOBINARY", [], 4, "no binary 7",
     ["an attachment is missing, as KeePassXC leaves them out of its exports: export the database with keepass"]),
    ("ls -k BROKENKEY FAST", [PASSWORD], 4, "bad key file at *", ["BROKENKEY is a damaged key file: use a copy of it"]),
    ("import --plain --format psafe3 SAFETWICE FRESH", ["pw"], 4, "duplicate id *",
     ["two records have one id: delete one of them in Password Safe, or make it anew there"]),
    ("import --plain --format psafe3 SAFENIL FRESH", ["pw"], 4, "nil id at 1", ["the record of this number has no id: make it anew in Password Safe"]),
    ("import --plain --format psafe3 SAFEFIELD FRESH", ["pw"], 4, "bad field at *",
     ["the file of Password Safe is malformed: open it in Password Safe and save it again, or use a backup"]),
    ("import --plain --format psafe3 TABLE FRESH", ["x"], 4, "not a psafe3 file",
     ["TABLE is no file of Password Safe 3; --format says what it is: xml, psafe3, csv or bitwarden"]),
    ("import --plain --format csv LATIN FRESH", [], 4, "not UTF-8 at *",
     ["save the table in UTF-8, or convert it: iconv -f WINDOWS-1252 -t UTF-8 LATIN >NEW.csv"]),
    ("import --plain --format csv NOTITLE FRESH", [], 4, "no Title column",
     ["the first row names the columns, with commas between them: Title, and any of Group, Username, Password, URL, Notes, Last Modified, Created"]),
    ("import --plain --format csv BADROW FRESH", [], 4, "bad row 2",
     ["this row after the first has more or fewer fields than the first, or a time that is not as 2026-11-28T12:34:56Z; blank lines do not count"]),
    ("import --plain --format bitwarden TABLE FRESH", [], 4, "bad JSON",
     ["TABLE is no export of Bitwarden in JSON; --format says what it is: xml, psafe3, csv or bitwarden"]),
    ("import --plain --format bitwarden BADFOLDER FRESH", [], 4, "bad folder 1",
     ["the folder of this number in the export has no id or no name: export it again from Bitwarden"]),
    ("import --plain --format bitwarden BADITEM FRESH", [], 4, "bad item 2",
     ["the item of this number in the export is malformed, or in a folder that is not there: export it again from Bitwarden"]),
    ("import --plain --format bitwarden ITEMTWICE FRESH", [], 4, "duplicate id 05050505-0505-0505-0505-050505050505",
     ["two items have one id: delete one of them in Bitwarden, or make it anew there, and export it again"]),
    ("import --plain --format bitwarden ITEMNIL FRESH", [], 4, "nil id at 1",
     ["the item of this number has the id of zeros: make it anew in Bitwarden, and export it again"]),
    ("ls FAST", [b"\xff"], 4, "line 1 is not UTF-8", ["passwords are typed in UTF-8: choose a UTF-8 locale"]),

    # What is not supported.
    ("import --plain --format bitwarden LOCKEDEXPORT FRESH", [], 5, "encrypted export",
     ["export it again from Bitwarden with the file format .json, without encryption, and delete the file once it is imported"]),
    ("ls COMPRESSED", [PASSWORD], 5, "compressed",
     ["switch compression off once and save the file. In KeePassXC: Database > Database Settings > General, untick 'Enable compression';",
      "in KeePass 2: File > Database Settings > Compression, choose 'None'. Or without a window, in python3 with pykeepass:",
      "  import getpass, pykeepass; kp = pykeepass.PyKeePass('COMPRESSED', getpass.getpass())",
      "  kp.kdbx.header.value.dynamic_header.compression_flags.data.compression = False",
      "  del kp.kdbx.header['data']; kp.save()"]),
    ("ls --plain PACKED", [], 5, "compressed",
     ["attachments in this XML are compressed: export it again, with keepass or from a database without compression"]),
    ("ls VERSION", ["x"], 5, "version 327680", ["KDBX 3.1, 4.0 and 4.1 are read: save VERSION as KDBX 4 with the program that wrote it"]),
    ("ls CIPHER", ["x"], 5, "unknown *",
     ["choose AES-256, Twofish or ChaCha20 as cipher, and AES-KDF, Argon2d or Argon2id as key derivation, in the program that wrote it"]),
    ("ls VARIANT", ["x"], 5, "variant 16", ["save VARIANT anew with KeePassXC or KeePass 2, with Argon2 or AES-KDF as key derivation"]),

    # Copies that cannot be merged.
    ("merge --plain ONE TWO", [], 6, "clash at *",
     ["these are not copies of one database: what is a group in one is an entry in another, or another root. Leave out the file that does not belong"]),
    ("merge --plain CROSS1 CROSS2", [], 6, "move cycle *",
     ["each of these groups was moved into another of them: move one of them back in one copy, then merge again"]),

    # Files, limits and streams.
    ("ls NEAR", [], 7, "no such file", ["did you mean FAST?"]),
    ("ls UNENDED", [], 7, "no such file", ["did you mean FAST?"]),
    ("ls LATERKDB", [], 7, "no such file", ["did you mean LATER?"]),
    ("ls OTHERENDED", [], 7, "no such file", ["check the name, and the folder that the call was made in"]),
    ("ls LETTER", [], 7, "no such file", ["check the name, and the folder that the call was made in"]),
    ("ls HALF", [], 7, "no such file", ["check the name, and the folder that the call was made in"]),
    ("show Bank FAST", [], 7, "no such file", ["DATABASE comes first: keepass show FAST Bank"]),
    ("ls --plain NONE", [], 7, "no such file", ["check the name, and the folder that the call was made in"]),
    ("merge -s FAST NONE", [], 7, "no such file", ["check the name, and the folder that the call was made in"]),
    ("ls -k NONE FAST", [], 7, "no such file", ["check the name, and the folder that the call was made in"]),
    ("db-edit -p --set-key-file NONE FAST", [], 7, "no such file", [MAKE_KEY]),
    ("db-create --set-key-file NONE FRESH", [], 7, "no such file", [MAKE_KEY]),
    ("db-create -p --set-key-file FOLDER FRESH", [], 7, "file fault", ["it is a folder, and a file is needed"]),
    ("db-create -p FAR", ["x", "x"], 7, "file fault", ["there is no folder FARFOLDER: make it first"]),
    ("ls FOLDER", [], 7, "file fault", ["it is a folder, and a file is needed"]),
    ("ls --plain PIPE", [], 7, "file fault", ["it is a pipe, and a file is needed: write it into a file first"]),
    ("ls --plain /dev/null", [], 7, "file fault", ["it is a device or a socket, and a file is needed"]),
    ("import --plain PLAIN FAR", [], 7, "file fault", ["there is no folder FARFOLDER: make it first"]),
    ("mkdir --plain HELD New", [], 7, "file fault", ["another call is writing it: try again when that has ended"]),
    ("ls LARGE", ["x"], 8, "limit passed", ["the file has 134217729 bytes, and at most 134217728 are read: take attachments out of it"]),
    ("attachment-import --plain PLAIN Bank a LARGE", [], 8, "limit passed", ["the file has 134217729 bytes, and at most 134217728 are read"]),
    ("attachment-import --plain ATTACHED Bank b HUGE", [], 8, "limit passed",
     ["with this attachment the database would be too large: a file has at most 134217728 bytes, and the history counts too"]),
    ("attachment-import FAST Bank a NONE", [], 7, "no such file", ["check the name, and the folder that the call was made in"]),
    ("attachment-export --plain ATTACHED Bank a FAR", [], 7, "file fault", ["there is no folder FARFOLDER: make it first"]),
    ("ls MEMORY", ["x"], 8, "limit passed",
     ["Argon2 asks for 2048 MiB of memory, and at most 1024 are taken: lower it in the program that wrote the file"]),
    ("ls ROUNDS", ["x"], 8, "limit passed",
     ["AES-KDF asks for 8589934592 rounds, and at most 4294967296 are made: lower them in the program that wrote the file"]),
    ("ls LANES", ["x"], 8, "limit passed", ["Argon2 asks for 1025 lanes, and at most 1024 are taken: lower it in the program that wrote the file"]),
    ("db-edit -p MEMORY", ["x", "y", "y"], 8, "limit passed",
     ["Argon2 asks for 2048 MiB of memory, and at most 1024 are taken: lower it in the program that wrote the file"]),
    ("db-edit --kdf aes --rounds 4294967297 FAST", [PASSWORD], 8, "limit passed", ["AES-KDF makes at most 4294967296 rounds: lower --rounds"]),
    ("db-edit --kdf argon2d --rounds 0 FAST", [PASSWORD], 8, "limit passed", ["Argon2 makes 1 to 4294967295 passes: see --rounds"]),
    ("db-edit --kdf argon2id --lanes 0 FAST", [PASSWORD], 8, "limit passed", ["Argon2 has 1 to 1024 lanes: see --lanes"]),
    ("db-edit --kdf argon2id --memory 0000000008 FAST", [PASSWORD], 8, "limit passed",
     ["Argon2 takes 8 KiB for each lane at least, and 1048576 KiB at most: see --memory"]),
    ("db-create -p --kdf argon2id --memory 1048577 FRESH", ["x", "x"], 8, "limit passed",
     ["Argon2 takes 8 KiB for each lane at least, and 1048576 KiB at most: see --memory"]),
    ("import --plain --format psafe3 SAFEMANY FRESH", ["x"], 8, "limit passed",
     ["the file of Password Safe asks for more than 67108864 iterations: lower them in Password Safe"]),
    ("ls --plain DEEP", [], 8, "limit passed",
     ["at most 128 levels of groups, 256 open elements, 262144 groups, entries and older versions, times up to 9999: shorten the histories"]),
    ("ls FAST", [None], 12, "line 1 missing", ["nothing was typed for the password of FAST"]),
    ("add -p FAST New", [PASSWORD, None], 12, "line 2 missing", ["nothing was typed for the new password of the entry"]),
    ("edit --plain --set PIN --set PUK PLAIN Bank", ["1", None], 12, "line 2 missing", ["nothing was typed for the value of the field PUK"]),
    ("db-create -p FRESH", [None], 12, "line 1 missing", ["nothing was typed twice alike for the new password of FRESH"]),
    ("db-edit -p FAST", [PASSWORD, "new", None], 12, "line 2 missing", ["nothing was typed twice alike for the new password of FAST"]),
]

# Calls whose standard input or output is no terminal: (words, standard input, standard output, status, TEXT, hints).
REDIRECTED = [
    ("ls FAST", "/dev/null", None, 12, "line 1 missing", ["line 1 of standard input is to be the password of FAST; --tty asks for it at the terminal"]),
    ("ls FAST", "LONGLINE", None, 8, "limit passed", ["a line has more than 4096 bytes"]),
    ("ls FAST", "FOLDER", None, 11, "fault", ["standard input could not be read, or the system gave no random bytes"]),
    ("ls --plain PLAIN", None, "/dev/full", 10, "could not be written", ["the output could not be written: check where it goes, and whether the disk is full"]),
]

# Hints that no call here gives, and why.
UNTYPED = {
    (0, "Successfully *", "memory-asked"): "it is typed with the new passwords",
    (2, "id taken *", ""): "the id is drawn",
    (2, "no attribute *", "number"): "it is typed with the other calls of clip",
    (3, "wrong key or damaged", "kdbx-4"): "its MACs would have to be right",
    (7, "file fault", ""): "nothing can be seen of its cause",
    (7, "file fault", "session"): "it is typed with the lines of sessions",
    (9, "*", "memory"): "memory is not scarce for the program alone",
    (9, "*", ""): "memory is not scarce for the program alone",
    (12, "line * missing", ""): "of a line that the words do not ask for",
}
