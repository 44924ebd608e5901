"""Sessions that are drawn, the databases that they are over, and the single calls that their lines stand for, by a reader of lines
that was written from docs/COMMANDS.md without the code of this repository."""
import base64, calendar, os, random, re, struct, subprocess, time, tomllib

here = os.path.dirname(os.path.abspath(__file__))
top = os.path.dirname(os.path.dirname(here))
TABLE = tomllib.load(open(f"{top}/docs/commands.toml", "rb"))
NAMES = ["ls", "show", "search", "add", "edit", "mv", "rm", "mkdir", "rmdir", "db-info"]
PASSWORD = "one two é"
LINE_LIMIT = 4096
LINES = 65536
WRONG = b"keepass: words: wrong words\n"


# ---- the databases

def node_id(number):
    return base64.b64encode(bytes([number]) * 16).decode()


def entry(number, title, *fields, inside=""):
    """An entry with further fields, each of which is a name and a value; a name with `*` is of a hidden one."""
    texts = "".join(f'<String><Key>{name.strip("*")}</Key><Value{" ProtectInMemory=" + chr(34) + "True" + chr(34) if "*" in name else ""}>{value}</Value></String>'
                    for name, value in [("Title", title), *fields])
    return f"<Entry><UUID>{node_id(number)}</UUID>{texts}{inside}</Entry>"


def group(number, name, inside=""):
    return f"<Group><UUID>{node_id(number)}</UUID><Name>{name}</Name>{inside}</Group>"


def document(inside, meta=""):
    return f"<KeePassFile><Meta>{meta}</Meta><Root>{inside}</Root></KeePassFile>"


SMALL = document(group(1, "Root", entry(2, "Bank", ("UserName", "ada"), ("Password*", "old secret")) + entry(3, "Mail") + group(4, "Work")))
LARGER = document(group(1, "Root", "".join([
    entry(2, "Bank", ("UserName", "ada"), ("Password*", "old secret"), ("PIN*", "1234"), ("Notes", "two\nlines &amp; more"), ("otp*", "otpauth://totp/x?secret=GEZDGNBVGY3TQOJQ")),
    entry(3, "Wi-Fi at home", ("UserName", "router"), ("URL", "http://192.0.2.1"), inside="<Tags>home;net</Tags>" + "<History>" + entry(3, "Wi-Fi", ("UserName", "old")) + "</History>"),
    entry(12, "größe 邮件 🔑"),
    group(4, "Work", entry(5, "Mail", ("Password*", "{REF:P@T:Bank}")) + entry(6, "Mail") + group(7, "Old things", entry(8, "Payroll"))),
    group(9, "Bin", entry(10, "Gone") + group(11, "Gone too")), group(13, "Empty")])), f"<RecycleBinEnabled>True</RecycleBinEnabled><RecycleBinUUID>{node_id(9)}</RecycleBinUUID>")
NO_BIN = document(group(1, "Root", entry(2, "Bank") + entry(3, "Mail") + group(4, "Work", entry(5, "Mail"))), "<RecycleBinEnabled>False</RecycleBinEnabled>")


def make_databases(program, folder):
    """The databases in a folder: (file, words that open it, the line of its password or none, how likely it is)."""
    def call(*words, lines=""):
        done = subprocess.run([program, *words], input=lines.encode(), capture_output=True, cwd=folder)
        if done.returncode:
            raise SystemExit(f"sessions: {words}: status {done.returncode}: {done.stderr.decode()}")
    os.makedirs(folder)
    for name, text in (("small.xml", SMALL), ("larger.xml", LARGER), ("nobin.xml", NO_BIN)):
        with open(f"{folder}/{name}", "w", encoding="utf-8") as file:
            file.write(text)
    with open(f"{folder}/key", "wb") as file:
        file.write(bytes(range(32)))
    fast = ["--kdf", "aes", "--rounds", "1"]
    line = PASSWORD + "\n"
    call("import", "-p", "larger.xml", "larger.kdbx", lines=line)
    call("db-edit", *fast, "larger.kdbx", lines=line)
    call("import", "--set-key-file", "key", "small.xml", "keyed.kdbx")
    call("db-edit", *fast, "--cipher", "chacha20", "--no-password", "-k", "key", "keyed.kdbx")
    call("import", "-p", "--set-key-file=key", "nobin.xml", "both.kdbx", lines=line)
    call("db-edit", *fast, "--version", "3.1", "-k", "key", "both.kdbx", lines=line)
    return [("small.xml", ["--plain"], b"", 4), ("larger.xml", ["--plain"], b"", 4), ("nobin.xml", ["--plain"], b"", 2), ("larger.kdbx", [], line.encode(), 3),
            ("keyed.kdbx", ["--no-password", "-k", "../key"], b"", 1), ("both.kdbx", ["--key-file=../key"], line.encode(), 1)]


# ---- lines

ENTRIES = ["Bank", "Mail", "Wi-Fi at home", "größe 邮件 🔑", "Work/Mail", "/Work/Old things/Payroll", "Bin/Gone", "New", "Work/New", "two  spaces", "{02020202-0202-0202-0202-020202020202}", "Nope", "Work/", "", "/"]
GROUPS = ["Work", "Work/Old things", "/", "", "Empty/", "Bin", "Recycle Bin", "Made", "Work/Made", "A b/c", "{04040404-0404-0404-0404-040404040404}", "Nope/x", "Bank"]
TEXTS = ["x", "two words", "", "é 邮件", "a\\b 'c'", "-", "--", "=x", "{REF:T@I:02020202020202020202020202020202}"]
VALUES = ["secret", "", " a  b ", "otpauth://totp/x?secret=GEZDGNBVGY3TQOJQ", "otpauth://hotp/x", "ls", 'rm "Bank"', "quit", "é\r", "x" * 4096]


def spelled(draw, word):
    """A word as a line may have it."""
    if not word or " " in word or draw.random() < 0.1:
        return f'"{word}"'
    if draw.random() < 0.05:
        place = draw.randrange(len(word))
        return f'{word[:place]}"{word[place:]}"'
    return word


def options(draw, command):
    """Some options of a command, and the lines that they ask for."""
    words, lines = [], []
    def maybe(chance, *found):
        if draw.random() < chance:
            words.extend(found)
            return True
    if command == "ls":
        maybe(0.3, draw.choice(["-R", "-Rf", "--recursive", "-f"]))
        maybe(0.1, "--ids")
    elif command == "show":
        maybe(0.3, draw.choice(["-s", "--all", "--show-attachments", "-sa", "-s", "--show-protected"]))
        for _ in range(draw.choice([0, 0, 0, 1, 2])):
            words.extend(["-a", draw.choice(["Title", "Password", "PIN", "Notes", "Nope", "P 2"])])
        maybe(0.1, "--at", draw.choice(["0", "1", "2", "x"]))
    elif command == "add":
        maybe(0.3, "-u", draw.choice(TEXTS[:6]))
        maybe(0.2, f"--url={draw.choice(TEXTS)}")
        maybe(0.2, "--notes", draw.choice(TEXTS))
        if maybe(0.35, draw.choice(["-p", "--password-prompt"])):
            lines.append(draw.choice(VALUES))
        else:
            maybe(0.2, "-g", "-L", "6", "-n", "-x", "123456789")
    elif command == "edit":
        if draw.random() < 0.1:
            return ["--restore", draw.choice(["0", "1", "5"])], []
        if maybe(0.35, draw.choice(["-p", "--password-prompt"])):
            lines.append(draw.choice(VALUES))
        if maybe(0.1, "--otp"):
            lines.append(draw.choice(VALUES[:5]))
        for name in draw.sample(["PIN", "P 2", "Title", "größe"], draw.choice([0, 0, 1, 2])):
            words.extend(draw.choice([["--set", name], [f"--set={name}"]]))
            lines.append(draw.choice(VALUES))
        maybe(0.2, "-t", draw.choice(["New", "two  spaces", "Bank", "x/y"]))
        maybe(0.2, "-u", draw.choice(TEXTS[:6]))
        maybe(0.1, "--unset", draw.choice(["PIN", "Nope"]))
        maybe(0.1, "--tag", draw.choice(["home", "new tag", ";"]))
        maybe(0.1, "--untag", "home")
        maybe(0.1, "--expires", draw.choice(["2031-01-31T00:00:00Z", "never", "soon"]))
        maybe(0.1, "--protect")
    maybe(0.08, draw.choice(["-q", "--quiet"]))
    return words, lines


def positions(draw, command):
    entries, groups = draw.choice(ENTRIES), draw.choice(GROUPS)
    if command == "ls":
        return draw.choice([[], [], [groups]])
    if command == "search":
        return [draw.choice(["bank", "mail", "title:Bank", "+a !b", '', "*", "x", "user:ada home"])]
    if command == "mv":
        return [draw.choice([entries, groups, draw.choice(GROUPS) + "/"]), groups]
    if command in ("mkdir", "rmdir"):
        return [groups]
    return [] if command == "db-info" else [entries]


def odd_line(draw):
    """A line that is no command of a session, or none at all."""
    return draw.choice(["", "", " ", "   ", '"', 'ls "', '"ls', '""', "quit now", "exit -q", "QUIT", "merge x.xml", "export", "open x", "history Bank", "clip Bank", "generate", "ls --plain", "ls --no-password", "show -k key Bank",
                        "show --key-file=key Bank", "ls a b", "show", "add", "mv a", "rm", "ls -R -R", "ls -z", "lss", "--version", "--help", "ls --help", "-q", "ls\t", "\tls", "ls\r", "\r", "é", "ls \xa0", "db-edit --cipher aes", "edit Bank", "ls -- -x",
                        "rm -- Bank", "add -pu Bank", "add -p -g Bank", "edit --set Title Bank", "selftest 1"])


def drawn_lines(draw):
    """The lines of a session, as bytes."""
    lines = []
    for _ in range(draw.choice([1, 2, 3, 3, 4, 4, 5, 6])):
        chance = draw.random()
        if chance < 0.12:
            lines.append(odd_line(draw).encode())
            continue
        if chance < 0.15:
            lines.append(draw.choice([b"quit", b"exit", b' "quit" ', b"\xff", b"show \xc3", b"ls " + b" " * 4100, b"ls" + b" " * 4094, b"ls" + b" " * 4095]))
            continue
        command = draw.choice(NAMES + ["ls", "show", "add", "edit", "edit", "mv", "rm"])
        found, values = options(draw, command)
        words = found + positions(draw, command) if draw.random() < 0.7 else positions(draw, command) + found
        gap = " " if draw.random() < 0.9 else "  "
        lines.append((gap if draw.random() < 0.05 else "").encode() + gap.join([command] + [spelled(draw, word) for word in words]).encode())
        lines.extend(value.encode() for value in values)
    if draw.random() < 0.1:
        lines = lines[:-1]
    return lines


def drawn(seed, databases):
    """The session of a seed: the file, the words that open it, its password's line, and its input after that."""
    draw = random.Random(seed)
    file, access, line, _ = draw.choices(databases, [one[3] for one in databases])[0]
    end = draw.choice([b"\n", b"\n", b"\n", b"\r\n", b""])
    lines = drawn_lines(draw)
    text = b"".join(one + b"\n" for one in lines[:-1]) + (lines[-1] + end if lines else b"")
    return file, access + (["-q"] if draw.random() < 0.05 else []), line, text


# ---- a second reader of lines

def cut(line):
    """The words of a line, or None where a quotation mark has no end."""
    if line.count(b'"') % 2:
        return None
    return [piece.replace(b'"', b"") for piece in re.findall(rb'(?:[^ "]|"[^"]*")+', line)]


def rows_of(command):
    """The options of a command by their long names and letters: (name, has a value)."""
    found = {}
    for one in TABLE["commands"]:
        if one["name"] == command:
            for key in one["options"] + ["key-file", "no-password", "plain", "quiet"]:
                row = TABLE["options"][key]
                name = row.get("name", key)
                found["--" + name] = found["-" + row.get("letter", "--")] = (name, "value" in row)
    return found


ROWS = {command: rows_of(command) for command in NAMES}


def options_of(command, words):
    """The names of the options in words, as often as they are given."""
    names, rows, due = [], ROWS[command], False
    for word in words:
        if due:
            due = False
        elif word == "--":
            break
        elif word.startswith("--"):
            name, has_value = rows.get(word.split("=")[0], ("", False))
            names.append(name)
            due = has_value and "=" not in word
        elif word.startswith("-") and len(word) > 1:
            name, has_value = rows.get(word[:2], ("", False))
            names += [name] if has_value else [rows.get("-" + letter, ("", False))[0] for letter in word[1:]]
            due = has_value and len(word) == 2
    return names


class Input:
    """The lines of an input, one after another."""

    def __init__(self, text):
        self.text = text

    def line(self):
        """The next line, or None at the end; `LONG` where it is too long."""
        if not self.text:
            return None
        line, feed, rest = self.text.partition(b"\n")
        line = line[:-1] if feed and line.endswith(b"\r") else line
        self.text = rest
        return LONG if len(line) > LINE_LIMIT else line


LONG = object()


def is_utf8(line):
    try:
        line.decode()
        return True
    except UnicodeDecodeError:
        return False


def by_calls(call, file, access, password, text):
    """(status, texts, error lines) of the lines of a session, made to single calls: `call(words, input)` makes one."""
    given, out, err = Input(text), b"", b""
    for _ in range(LINES):
        line = given.line()
        if line is None:
            return 0, out, err
        if line is LONG:
            return 8, out, err + b"keepass: input: limit passed\n"
        if not is_utf8(line):
            return 4, out, err + b"keepass: input: line N is not UTF-8\n"
        words = cut(line)
        if words == []:
            continue
        if words in ([b"quit"], [b"exit"]):
            return 0, out, err
        texts = [one.decode() for one in words or []]
        if not texts or texts[0] not in NAMES or {"plain", "no-password", "key-file"} & set(names := options_of(texts[0], texts[1:])):
            err += WRONG
            continue
        # A quiet session is one in which each line is.
        quiet = [one for one in access if one == "-q" and "quiet" not in names]
        status, printed, refused = call([texts[0], *[one for one in access if one != "-q"], *quiet, file, *texts[1:]], password + given.text)
        out, err = out + printed, err + refused
        if status > 2:
            return status, out, err
        if refused != WRONG:
            for name in names:
                if name in ("password-prompt", "otp", "set"):
                    given.line()
    return (8, out, err + b"keepass: input: limit passed\n") if given.text else (0, out, err)


# ---- what is compared

ID = re.compile(rb"\{[0-9a-f]{8}-[0-9a-f]{4}-[0-9a-f]{4}-[0-9a-f]{4}-[0-9a-f]{12}\}")
ELEMENT = re.compile(rb"<([A-Za-z]+)>([^<]+)</\1>")
IDS = re.compile(rb"UUID$|^PreviousParentGroup$|Group$")
TIMES = re.compile(rb"(Time|Changed)$")
# A change of an entry is a second later at least than the one before it, so times of a session may be ahead of the clock by as many
# seconds as it has lines. Other times of the documents are farther away from it.
AHEAD = 3600
DELETED = re.compile(rb"<DeletedObjects>.*</DeletedObjects>", re.S)


def same_ids(text):
    """A text in which new ids are numbers, in the order in which they come, and numbers of lines are N."""
    seen = {}
    text = re.sub(rb"input: line \d+ ", b"input: line N ", text)
    return ID.sub(lambda found: found.group() if len(set(found.group()[1:9])) <= 2 else b"{%d}" % seen.setdefault(found.group(), len(seen)), text)


def same_document(text, since):
    """A document in which new ids are numbers, in the order in which they come, times since a moment are `now`, and deleted nodes, which
    are in the order of their ids, are in that of their texts."""
    seen = {}

    def element(found):
        name, value = found.groups()
        if TIMES.search(name):
            try:
                seconds = struct.unpack("<q", base64.b64decode(value))[0] - 62135596800 if not value.endswith(b"Z") else calendar.timegm(time.strptime(value.decode(), "%Y-%m-%dT%H:%M:%SZ"))
            except (ValueError, struct.error):
                return found.group()
            return b"<%s>now" % name if since - 2 <= seconds <= time.time() + AHEAD else found.group()
        if IDS.search(name) and len(value) == 24 and len(set(base64.b64decode(value))) > 1:
            return b"<%s>%d" % (name, seen.setdefault(value, len(seen)))
        return found.group()
    return DELETED.sub(lambda found: b"".join(sorted(re.findall(rb"<DeletedObject>.*?</DeletedObject>", found.group(), re.S))), ELEMENT.sub(element, text))
