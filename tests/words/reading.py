"""A second reader of the words of a call, written from the manual and not from the program.

`read(words)` gives None where the words are wrong, and otherwise a dictionary: the command, the options that were given
with their values (True of a flag, a list where it may come several times), the positions, how many lines of standard input
are read, of a password that is generated its length and the characters that it can have, and of a test how many entries
it has. `line(words)` is the same as crates/words_reader prints it. The table of commands and options is docs/commands.toml."""
import datetime, os, re, string, tomllib

top = os.path.dirname(os.path.dirname(os.path.dirname(os.path.abspath(__file__))))
table = tomllib.load(open(f"{top}/docs/commands.toml", "rb"))
OPTIONS = table["options"]
CREDENTIALS = ["key-file", "no-password"]
COMMANDS = {command["name"]: command for command in table["commands"]}
FILE_CHANGES = ("other-password", "set-key-file", "unset-password", "unset-key-file", "cipher", "kdf", "file-version")
COSTS = ("rounds", "memory", "lanes")
VERSIONS = ("at", "restore")
FURTHER = ("set", "protect", "unset", "tag", "untag", "expires")
CHANGES = ("title", "username", "url", "notes", "password-prompt", "generate", "otp") + FURTHER
STANDARD = ("Title", "UserName", "Password", "URL", "Notes")
# White space as Unicode has it.
WHITE = "\t\n\v\f\r \x85\xa0\u1680\u2000\u2001\u2002\u2003\u2004\u2005\u2006\u2007\u2008\u2009\u200a\u2028\u2029\u202f\u205f\u3000"
PROFILE = ("length", "lower", "upper", "numeric", "special", "exclude")
CLASSES = {"lower": string.ascii_lowercase, "upper": string.ascii_uppercase, "numeric": string.digits, "special": string.punctuation}


class Wrong(Exception):
    """The words are no command."""


def has_database(command):
    return COMMANDS[command].get("database", True)


def has_credentials(command):
    return has_database(command) and COMMANDS[command].get("credentials", True)


def has_plain(command):
    return has_database(command) and COMMANDS[command].get("plain", True)


def taken_by(command):
    return (COMMANDS[command]["options"] + CREDENTIALS * has_credentials(command) + ["plain"] * has_plain(command)
            + ["quiet"] * has_database(command))


def of_name(command, long_name):
    for name in taken_by(command):
        if OPTIONS[name].get("name", name) == long_name:
            return name
    raise Wrong


def of_letter(command, letter):
    for name in taken_by(command):
        if OPTIONS[name].get("letter") == letter:
            return name
    raise Wrong


def counts(positions):
    """The least and the greatest number of positions."""
    least = most = 0
    for word in positions.split():
        most += 16 if word.endswith("...") else 1
        least += 0 if word.startswith("[") else 1
    return least, most


def options_and_positions(command, words):
    """Cuts the words into pairs of an option and its value, and positions."""
    pairs, positions = [], []
    rest = list(words)
    while rest:
        word = rest.pop(0)
        if word == "--":
            return pairs, positions + rest
        if len(word.encode()) < 2 or not word.startswith("-"):
            positions.append(word)
            continue
        if word.startswith("--"):
            name, sign, value = word[2:].partition("=")
            name = of_name(command, name)
            if "value" not in OPTIONS[name]:
                if sign:
                    raise Wrong
                pairs.append((name, True))
                continue
            value = value if sign else None
        else:
            name = of_letter(command, word[1])
            if "value" not in OPTIONS[name]:
                for letter in word[1:]:
                    flag = of_letter(command, letter)
                    if "value" in OPTIONS[flag]:
                        raise Wrong
                    pairs.append((flag, True))
                continue
            value = word[2:].removeprefix("=") if len(word) > 2 else None
        if value is None:
            if not rest or (len(rest[0].encode()) > 1 and rest[0].startswith("-")):
                raise Wrong
            value = rest.pop(0)
        pairs.append((name, value))
    return pairs, positions


def opens(plain, no_password, key_file):
    """What opens a database fits it."""
    return not (no_password or key_file) if plain else key_file or not no_password


def profile(given):
    """The length of a generated password, and the characters that it can have."""
    length = given.get("length", "32")
    if not re.fullmatch("[0-9]{1,4}", length) or not 1 <= int(length) <= 4096:
        raise Wrong
    classes = [name for name in CLASSES if name in given] or ["lower", "upper", "numeric"]
    characters = [c for name in classes for c in CLASSES[name] if c not in given.get("exclude", "")]
    if not characters:
        raise Wrong
    return int(length), "".join(characters)


def derivation(given):
    """The key derivation that is asked for, with its costs: its name, rounds or passes, KiB and lanes."""
    if "kdf" not in given:
        if any(name in given for name in COSTS):
            raise Wrong
        return None
    is_aes = given["kdf"] == "aes"
    if is_aes and ("memory" in given or "lanes" in given):
        raise Wrong
    costs = [given.get(name, usual) for name, usual in zip(COSTS, ("100000" if is_aes else "10", "65536", "2"))]
    if not all(re.fullmatch("[0-9]{1,10}", cost) for cost in costs):
        raise Wrong
    return given["kdf"], *map(int, costs)


def check_entry_change(given):
    """What an entry is changed to: an older version of it and nothing else, or at least one value."""
    if "restore" in given and any(name in given for name in CHANGES + PROFILE):
        raise Wrong
    if not any(name in given for name in CHANGES + ("restore",)):
        raise Wrong


def is_tag(text):
    """A tag is a text without a semicolon, a comma, or white space around it."""
    return text != "" and text == text.strip(WHITE) and not set(text) & set(";,")


def seconds(text):
    """The seconds since the year 1 of a time in ISO 8601."""
    found = re.fullmatch("([0-9]{4})-([0-9]{2})-([0-9]{2})T([0-9]{2}):([0-9]{2}):([0-9]{2})Z", text)
    try:
        return int((datetime.datetime(*map(int, found.groups())) - datetime.datetime(1, 1, 1)).total_seconds())
    except (AttributeError, ValueError):
        raise Wrong from None


def check_further(given):
    """What else of an entry is changed: fields of its own, tags, and when it expires."""
    if any(name == "" or name in STANDARD for option in ("set", "unset") for name in given.get(option, [])):
        raise Wrong
    if not all(is_tag(tag) for option in ("tag", "untag") for tag in given.get(option, [])):
        raise Wrong
    if "protect" in given and "set" not in given:
        raise Wrong
    if given.get("expires", "never") != "never":
        seconds(given["expires"])


def check_attachment(command, given, positions):
    """One of FILE and `--stdout` says where an attachment goes, and one that is put in has a name."""
    if command == "attachment-export" and ("stdout" in given) == (len(positions) == 4):
        raise Wrong
    if command == "attachment-import" and positions[2] == "":
        raise Wrong


def check_change(given):
    """What a file is changed to: something, no part of the key both set and unset, and one of them left."""
    if not any(name in given for name in FILE_CHANGES):
        raise Wrong
    if ("other-password" in given and "unset-password" in given) or ("set-key-file" in given and "unset-key-file" in given):
        raise Wrong
    password = "other-password" in given or not ("unset-password" in given or "no-password" in given)
    if not password and not ("set-key-file" in given or ("key-file" in given and "unset-key-file" not in given)):
        raise Wrong


def read(words):
    try:
        return command_of(words)
    except Wrong:
        return None


def command_of(words):
    if not words or words[0] not in COMMANDS:
        raise Wrong
    command = words[0]
    pairs, positions = options_and_positions(command, words[1:])
    given = {}
    for name, value in pairs:
        if OPTIONS[name].get("many"):
            given.setdefault(name, []).append(value)
        elif name in given:
            raise Wrong
        else:
            given[name] = value
    least, most = counts(COMMANDS[command]["positions"])
    if not least <= len(positions) <= most:
        raise Wrong
    for name, value in given.items():
        if "choices" in OPTIONS[name] and value not in OPTIONS[name]["choices"]:
            raise Wrong
    if any(name in given and not re.fullmatch("[0-9]{1,6}", given[name]) for name in VERSIONS):
        raise Wrong
    if command == "edit":
        check_entry_change(given)
        check_further(given)
    check_attachment(command, given, positions)
    if "totp" in given and ("all" in given or "show-attachments" in given):
        raise Wrong
    generated = None
    if command == "generate" or "generate" in given:
        if "password-prompt" in given:
            raise Wrong
        generated = profile(given)
    elif any(name in given for name in PROFILE):
        raise Wrong
    if command == "generate":
        return {"command": command, "given": given, "positions": positions, "lines": 0, "generated": generated}
    if command == "selftest":
        if not re.fullmatch("[0-9]{1,6}", positions[0]) or not 1 <= int(positions[0]) <= 50000:
            raise Wrong
        return {"command": command, "given": given, "positions": positions, "lines": 0}
    plain, same = "plain" in given, "same-credentials" in given
    if command == "import":
        set_password = "set-password" in given
        if plain == (set_password or "set-key-file" in given):
            raise Wrong
        lines = (1 if given.get("import-format") == "psafe3" else 0) + (1 if set_password else 0)
        return {"command": command, "given": given, "positions": positions, "lines": lines}
    kdf = derivation(given)
    if command == "db-create":
        set_password = "first-password" in given
        if plain == (set_password or "set-key-file" in given) or (plain and ("cipher" in given or kdf)):
            raise Wrong
        return {"command": command, "given": given, "positions": positions, "lines": int(set_password), "kdf": kdf}
    if not opens(plain, "no-password" in given, "key-file" in given):
        raise Wrong
    if command == "db-edit":
        check_change(given)
    from_given = "no-password-from" in given, "key-file-from" in given
    if same and (plain or any(from_given)):
        raise Wrong
    if not same and not opens(plain, *from_given):
        raise Wrong
    lines = 0 if plain or "no-password" in given else 1
    if command == "merge" and not (plain or same or "no-password-from" in given):
        lines += len(positions) - 1
    lines += ("password-prompt" in given) + ("otp" in given) + ("other-password" in given) + len(given.get("set", []))
    return {"command": command, "given": given, "positions": positions, "lines": lines, "generated": generated, "kdf": kdf}


def access(name, plain, quiet, key_file, no_password):
    """The parts of a line for a database, and how it is opened."""
    parts = [f"database={name}"] + ["plain"] * plain + ["quiet"] * quiet
    return parts + ([f"key-file={key_file}"] if key_file is not None else []) + ["no-password"] * no_password


def profile_parts(generated):
    """The parts of a line for a generated password."""
    return [] if generated is None else [f"length={generated[0]}", f"alphabet={generated[1]}"]


def further_parts(given):
    """The parts of a line for fields of an entry's own, its tags, and when it expires."""
    def all_of(name):
        return [f"{name}={text}" for text in given.get(name, [])]

    expiry = given.get("expires")
    return (all_of("set") + ["protect"] * ("protect" in given) + all_of("unset") + all_of("tag") + all_of("untag")
            + ([] if expiry is None else [f"expires={'never' if expiry == 'never' else seconds(expiry)}"]))


def settings_parts(given, kdf):
    """The parts of a line for a cipher and a key derivation."""
    names = ("kdf", "rounds", "memory", "lanes")
    return ([f"cipher={given['cipher']}"] if "cipher" in given else []) + [f"{name}={part}" for name, part in zip(names, kdf or ())]


def own_parts(command, given, positions, generated, kdf):
    """The parts of a line that only this command has."""
    def flags(*names):
        return [name for name in names if name in given]

    def texts(*names):
        return [f"{name}={given[name]}" for name in names if name in given]

    plain, quiet = "plain" in given, "quiet" in given
    if command == "ls":
        return [f"group={group}" for group in positions[1:]] + flags("recursive", "flatten", "ids")
    if command == "show":
        return ([f"entry={positions[1]}"] + flags("show-protected", "all", "show-attachments")
                + [f"attribute={name}" for name in given.get("attributes", [])] + flags("totp") + [f"at={int(given.get('at', 0))}"])
    if "restore" in given:
        return [f"entry={positions[1]}", f"restore={int(given['restore'])}"]
    if command in ("add", "edit"):
        return ([f"entry={positions[1]}"] + texts("title", "username", "url", "notes")
                + (["password"] if "password-prompt" in given else []) + profile_parts(generated) + flags("otp") + further_parts(given))
    if command == "merge":
        opened = given.get("key-file-from"), "no-password-from" in given
        if "same-credentials" in given:
            opened = given.get("key-file"), "no-password" in given
        return ([part for source in positions[1:] for part in access(source, plain, quiet, *opened)]
                + flags("same-credentials", "dry-run", "details"))
    if command == "import":
        form = given.get("import-format", "xml")
        return access(positions[0], form != "psafe3", quiet, None, False) + [f"format={form}"]
    if command == "db-create":
        return texts("name") + settings_parts(given, kdf)
    if command == "export":
        return [f"format={given.get('format', 'xml')}"]
    if command == "db-edit":
        version = [f"version={given['file-version']}"] if "file-version" in given else []
        password = ["set-password"] if "other-password" in given else flags("unset-password")
        return password + (texts("set-key-file") or flags("unset-key-file")) + settings_parts(given, kdf) + version
    if command == "attachment-export":
        return [f"entry={positions[1]}", f"name={positions[2]}"] + [f"to={name}" for name in positions[3:]]
    if command == "attachment-import":
        return [f"entry={positions[1]}", f"name={positions[2]}", f"source={positions[3]}"] + flags("force")
    names = {"history": ["entry"], "attachment-rm": ["entry", "name"], "search": ["term"], "mv": ["node", "group"], "rm": ["entry"], "mkdir": ["group"], "rmdir": ["group"], "db-info": [], "open": []}
    return [f"{name}={word}" for name, word in zip(names[command], positions[1:], strict=True)]


def line(words):
    """What the words are, in one line with a tab after each part."""
    found = read(words)
    if found is None:
        return "wrong"
    command, given, positions = found["command"], found["given"], found["positions"]
    generated = found.get("generated")
    if command == "generate":
        return "".join(part + "\t" for part in [command] + profile_parts(generated))
    if command == "selftest":
        return f"{command}\tcount={int(positions[0])}\t"
    plain, quiet = "plain" in given, "quiet" in given
    opened = access(positions[0], plain, quiet, given.get("key-file"), "no-password" in given)
    if command == "import":
        opened = access(positions[1], plain, quiet, given.get("set-key-file"), not plain and "set-password" not in given)
    if command == "db-create":
        opened = access(positions[0], plain, quiet, given.get("set-key-file"), not plain and "first-password" not in given)
    return "".join(part + "\t" for part in [command] + opened + own_parts(command, given, positions, generated, found.get("kdf")))
