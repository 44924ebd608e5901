#!/usr/bin/env python3
"""A slow model of `keepass merge`, written from the rules alone: what a call prints or refuses, and every byte of the document that it
writes. Documents are the dictionaries of tests/moving/model.py, which also reads and writes them.

    joining.py WORD...         does what the program does with these words (--plain alone, and `ls`), so that the tests can be tried on it

A refusal is raised as `Refused`. No document that is given is changed."""
import copy, itertools, os, sys, types

sys.dont_write_bytecode = True
here = os.path.dirname(os.path.realpath(__file__))
sys.path.insert(0, os.path.join(here, "..", "moving"))
import model as documents

NIL, LEVELS = documents.NIL, documents.LEVELS
Refused, hyphenated = documents.Refused, documents.hyphenated
UNCHANGED = "Database was not modified by merge operation.\n"
# The values of a document's head that have a time of change, by the name of that time.
TIMED = {"DatabaseNameChanged": ("DatabaseName",), "DatabaseDescriptionChanged": ("DatabaseDescription",),
         "DefaultUserNameChanged": ("DefaultUserName",), "RecycleBinChanged": ("RecycleBinEnabled", "RecycleBinUUID"),
         "EntryTemplatesGroupChanged": ("EntryTemplatesGroup",),
         "SettingsChanged": ("Color", "MaintenanceHistoryDays", "MasterKeyChangeRec", "MasterKeyChangeForce", "MemoryProtection",
                             "HistoryMaxItems", "HistoryMaxSize", "MasterKeyChangeForceOnce")}
PROTECTED = ("ProtectTitle", "ProtectUserName", "ProtectPassword", "ProtectURL", "ProtectNotes")


# ---- the order of contents


def ordered(value):
    """A value in a form in which Python compares as the rules do: texts by their bytes, nothing below something."""
    if isinstance(value, str):
        return value.encode()
    return () if value is None else value


def option(value):
    return () if value is None else (value,)


def choice(value):
    """Inherit is below No, and No below Yes."""
    return 0 if value == "inherit" else 1 + value


def items_of(part):
    return tuple(sorted((key.encode(), item["Value"].encode(), item["LastModificationTime"]) for key, item in part["CustomData"]["Item"].items()))


def content(version):
    """The content of a version of an entry, in the order of its parts."""
    times, auto_type = version["Times"], version["AutoType"]
    fields = sorted((key.encode(), field["Value"].encode(), field["hidden"]) for key, field in version["String"].items())
    files = sorted((name.encode(), *file["Value"]) for name, file in version["Binary"].items())
    pairs = tuple((pair["Window"].encode(), pair["KeystrokeSequence"].encode()) for pair in auto_type["Association"])
    texts = (version[name].encode() for name in ("Tags", "ForegroundColor", "BackgroundColor", "OverrideURL"))
    return (times["CreationTime"], times["ExpiryTime"], times["Expires"], version["IconID"], option(version["CustomIconUUID"]), tuple(fields),
            tuple(files), *texts, (auto_type["Enabled"], auto_type["DataTransferObfuscation"], auto_type["DefaultSequence"].encode(), pairs),
            items_of(version), version["QualityCheck"])


def group_content(group):
    times = group["Times"]
    return (times["CreationTime"], times["ExpiryTime"], times["Expires"], group["Name"].encode(), group["Notes"].encode(), group["IconID"],
            option(group["CustomIconUUID"]), group["DefaultAutoTypeSequence"].encode(), choice(group["EnableAutoType"]),
            choice(group["EnableSearching"]), items_of(group), group["Tags"].encode())


def setting(meta, name):
    return tuple(meta[name][part] for part in PROTECTED) if name == "MemoryProtection" else ordered(meta[name])


# ---- databases


def stats_of(part):
    return part["Times"]["LastAccessTime"], part["Times"]["UsageCount"]


def greater_stats(one, other):
    return tuple(map(max, one, other))


class Database:
    """What is joined of a document: neither the order of siblings nor how it is looked at. Two databases are equal where all their
    parts are; `spelled` has the dictionaries that belong to the marks."""

    def __init__(self, root):
        self.root, self.entries, self.groups, self.places, self.tombs = root, {}, {}, {}, {}
        self.timed, self.items, self.icons, self.spelled = {}, {}, {}, {}

    def parts(self):
        return self.root, self.entries, self.groups, self.places, self.tombs, self.timed, self.items, self.icons

    def __eq__(self, other):
        return self.parts() == other.parts()

    def nodes(self):
        return [*self.entries, *self.groups]

    def kind(self, identity):
        return "entry" if identity in self.entries else "group"

    def stamp(self, identity):
        """The latest change of a node in this database."""
        if identity in self.entries:
            return max(modified for modified, _ in self.entries[identity])
        return self.groups[identity][0][0]

    def add_version(self, identity, version, stats):
        mark = version["Times"]["LastModificationTime"], content(version)
        versions = self.entries.setdefault(identity, {})
        versions[mark] = greater_stats(versions.get(mark, stats), stats)
        self.spelled[mark] = version

    def add_group(self, group, stats):
        mark = group["Times"]["LastModificationTime"], group_content(group)
        self.groups[group["UUID"]] = mark, stats
        self.spelled[mark] = group

    def add_meta(self, meta):
        for changed, names in TIMED.items():
            value = meta[changed], tuple(setting(meta, name) for name in names)
            self.timed[changed] = value
            self.spelled[changed, value] = {name: meta[name] for name in (changed, *names)}
        for key, item in meta["CustomData"]["Item"].items():
            self.items[key] = item["LastModificationTime"], item["Value"].encode()
        for identity, icon in meta["CustomIcons"]["Icon"].items():
            self.icons[identity] = icon["LastModificationTime"], icon["Data"], icon["Name"].encode()


def database(document, root=None):
    """The database of a document, under another root's id where one is given."""
    own = document["Root"]["UUID"]
    root = root or own

    def known(identity):
        return root if identity == own else identity

    found = Database(root)
    for is_entry, one in documents.walk(document["Root"]):
        node = one.node
        if one.parent is not None:
            found.places[node["UUID"]] = node["Times"]["LocationChanged"], known(one.parent["UUID"]), known(node["PreviousParentGroup"])
        if is_entry:
            for version in [node, *node["History"]["Entry"]]:
                found.add_version(node["UUID"], version, stats_of(version))
        else:
            found.add_group(node | {"UUID": known(node["UUID"])}, stats_of(node))
    found.tombs = {identity: deleted for identity, deleted in document["DeletedObjects"].items() if identity != root}
    found.add_meta(document["Meta"])
    return found


# ---- the join


class Joined:
    """The databases of a list together, and what follows for each id."""

    def __init__(self, members):
        self.members, self.root = members, members[0].root
        self.ids = sorted({identity for member in members for identity in member.nodes()})
        self.places = {identity: max(member.places[identity] for member in members if identity in member.places)
                       for identity in self.ids if identity != self.root}
        self.own = {identity for identity in self.ids if self.is_own(identity)}

    def holders(self, identity):
        return [member for member in self.members if identity in member.entries or identity in member.groups]

    def stamp(self, identity):
        return max(member.stamp(identity) for member in self.holders(identity))

    def is_own(self, identity):
        stamp = self.stamp(identity)
        return identity == self.root or not any(member.tombs.get(identity, -1) >= stamp for member in self.members)

    def parent(self, identity):
        return self.places[identity][1]

    def path(self, identity):
        """The node and the groups that it is in, up to the root; or up to where it comes round again."""
        found = [identity]
        while found[-1] != self.root:
            above = self.parent(found[-1])
            if above in found:
                return found
            found.append(above)
        return found

    def cycle(self):
        """The groups that lie within one another, as the first own node whose path does not reach the root finds them; or None."""
        for identity in sorted(self.own):
            path = self.path(identity)
            if path[-1] != self.root:
                return sorted(path[path.index(self.parent(path[-1])) :])
        return None

    def kept(self):
        return {above for identity in self.own for above in self.path(identity)}

    def database(self):
        """The join."""
        found, kept = Database(self.root), self.kept()
        for member in self.members:
            found.spelled |= member.spelled
            for identity in kept & member.entries.keys():
                versions = found.entries.setdefault(identity, {})
                for mark, stats in member.entries[identity].items():
                    versions[mark] = greater_stats(versions.get(mark, stats), stats)
            for identity in kept & member.groups.keys():
                mark, stats = member.groups[identity]
                have = found.groups.get(identity, (mark, stats))
                if mark == have[0]:
                    found.groups[identity] = mark, greater_stats(stats, have[1])
                elif mark > have[0]:
                    found.groups[identity] = mark, stats
            for identity in member.tombs.keys() - kept:
                found.tombs[identity] = max(found.tombs.get(identity, 0), member.tombs[identity])
            for one, other in (found.timed, member.timed), (found.items, member.items), (found.icons, member.icons):
                for key, value in other.items():
                    one[key] = max(one.get(key, value), value)
        found.places = {identity: self.places[identity] for identity in kept if identity != self.root}
        return found


def least(ids):
    """The least of some ids, if there is one."""
    return min(ids, default=None)


def members_of(target, sources):
    """The databases that a merge joins, if their ids go together."""
    together = [target, *sources]
    roots = {document["Root"]["UUID"] for document in together}
    below = {one.node["UUID"] for document in together for _, one in documents.walk(document["Root"]) if one.parent is not None}
    clash = least(roots & below)
    documents.refuse_if(clash is not None, 6, f"clash at {clash and hyphenated(clash)}")
    members = [database(document, target["Root"]["UUID"]) for document in together]
    entries = {identity for member in members for identity in member.entries}
    groups = {identity for member in members for identity in member.groups}
    clash = least(entries & groups)
    documents.refuse_if(clash is not None, 6, f"clash at {clash and hyphenated(clash)}")
    return members


def joined(members):
    """The join of databases, or the refusal of their paths."""
    together = Joined(members)
    cycle = together.cycle()
    documents.refuse_if(cycle is not None, 6, f"move cycle {' '.join(map(hyphenated, cycle or []))}")
    for identity in together.kept():
        level = len(together.path(identity)) - any(identity in member.entries for member in members)
        documents.refuse_if(level > LEVELS, 8, "limit passed")
    return together.database()


def is_agreed(members):
    """Whether nothing that is deleted is later changed or filled, and no latest moves make a cycle, in all of the databases and in every
    part of them."""
    whole = Joined(members)
    if any(whole.stamp(identity) > deleted for member in members for identity, deleted in member.tombs.items() if identity in whole.ids):
        return False
    for size in range(1, len(members) + 1):
        for part in map(Joined, itertools.combinations(members, size)):
            gone = {identity for member in part.members for identity in member.tombs}
            if part.cycle() is not None or any(part.parent(identity) in gone for identity in part.own if identity != part.root):
                return False
    return True


# ---- the document of a join


def versions_of(join, identity):
    """The versions of an entry, rising, as dictionaries."""
    for mark, (accessed, usage) in sorted(join.entries[identity].items()):
        version = copy.deepcopy(join.spelled[mark])
        version["Times"] |= {"LastAccessTime": accessed, "UsageCount": usage}
        for name in ("UUID", "PreviousParentGroup", "History"):
            version.pop(name, None)
        version["Times"].pop("LocationChanged", None)
        yield version


def placed(join, identity, node):
    at, _, previous = join.places[identity]
    node["Times"]["LocationChanged"], node["PreviousParentGroup"] = at, previous


def laid(join, target):
    """The document of a database over an older document: siblings stay in their order, and newcomers follow by their ids."""
    old = {one.node["UUID"]: one.node for is_entry, one in documents.walk(target["Root"]) if not is_entry}
    children = {}
    for identity in sorted(join.places):
        children.setdefault((join.places[identity][1], join.kind(identity)), []).append(identity)

    def in_order(group, kind):
        present = children.get((group, kind.lower()), [])
        before = [node["UUID"] for node in old[group][kind]] if group in old else []
        return [one for one in before if one in present] + [one for one in present if one not in before]

    def entry(identity):
        *history, current = versions_of(join, identity)
        current |= {"UUID": identity, "History": {"Entry": history}}
        placed(join, identity, current)
        return current

    def group(identity):
        mark, (accessed, usage) = join.groups[identity]
        made = copy.deepcopy({key: value for key, value in join.spelled[mark].items() if key not in ("Entry", "Group")}) | {"UUID": identity}
        made["Times"] |= {"LastAccessTime": accessed, "UsageCount": usage}
        view = old.get(identity, {"IsExpanded": True, "LastTopVisibleEntry": NIL})
        made |= {name: view[name] for name in ("IsExpanded", "LastTopVisibleEntry")}
        if identity == join.root:
            made["Times"]["LocationChanged"] = target["Root"]["Times"]["LocationChanged"]
            made["PreviousParentGroup"] = target["Root"]["PreviousParentGroup"]
        else:
            placed(join, identity, made)
        return made | {"Entry": [entry(one) for one in in_order(identity, "Entry")], "Group": [group(one) for one in in_order(identity, "Group")]}

    return {"Meta": laid_meta(join, target["Meta"]), "Root": group(join.root), "DeletedObjects": dict(join.tombs)}


def laid_meta(join, old):
    """The head of the document: what a user looked at last stays the target's."""
    meta = dict(old)
    for changed, value in join.timed.items():
        meta |= join.spelled[changed, value]
    meta["CustomData"] = {"Item": {key: {"Key": key, "Value": value.decode(), "LastModificationTime": at} for key, (at, value) in join.items.items()}}
    meta["CustomIcons"] = {"Icon": {identity: {"UUID": identity, "Data": data, "Name": name.decode(), "LastModificationTime": at}
                                    for identity, (at, data, name) in join.icons.items()}}
    return meta


# ---- what is printed


def names_of(document):
    return {one.node["UUID"]: documents.title(one.node) if is_entry else one.node["Name"] for is_entry, one in documents.walk(document["Root"])}


def current_versions(document):
    """The marks of the versions of entries that are current."""
    return {one.node["UUID"]: (one.node["Times"]["LastModificationTime"], content(one.node))
            for is_entry, one in documents.walk(document["Root"]) if is_entry}


def paths_of(document):
    """The paths of the nodes, each after a slash."""
    return {one.node["UUID"]: "/" + one.path for _, one in documents.walk(document["Root"])}


def time_of(mark):
    return documents.Writer.time(types.SimpleNamespace(stream=None), mark[0])


def conflicts(target, sources, new):
    """The entries whose current version of the target is now in the history, though a source has the entry without that version: by their paths
    and ids, with both versions. The sources are the databases of the files that were merged."""
    was, now, paths = current_versions(target), current_versions(new), paths_of(new)
    found = [identity for identity in now if identity in was and was[identity] != now[identity]
             and any(identity in source.entries and was[identity] not in source.entries[identity] for source in sources)]
    return sorted((paths[identity].encode(), identity, now[identity], was[identity]) for identity in found)


def changes(target, old, new, join, in_detail=False):
    """A line for each change from the target to the new document, with names, or in detail with paths; the databases are those of both."""
    said_of = paths_of if in_detail else names_of
    before, after = said_of(target), said_of(new)
    was_current, is_current = current_versions(target), current_versions(new)
    lines = []
    for identity in sorted(before.keys() | after.keys()):
        done = []
        if identity not in before:
            done = ["created"]
        elif identity not in after:
            done = ["deleted"]
        else:
            is_same = (old.entries.get(identity), old.groups.get(identity)) == (join.entries.get(identity), join.groups.get(identity))
            if not is_same or was_current.get(identity) != is_current.get(identity):
                done = ["updated"]
            if old.places.get(identity) != join.places.get(identity):
                done.append("moved")
        kind, name = (join if identity in after else old).kind(identity), (after if identity in after else before)[identity]
        came = f" from {before[identity]}" if in_detail and "moved" in done else ""
        lines += [f"{one} {kind} {name} [{hyphenated(identity)}]" + came * (one == "moved") for one in done]
    lines += ["metadata"] if target["Meta"] != new["Meta"] else []
    lines += ["deletions"] if target["DeletedObjects"] != new["DeletedObjects"] else []
    return lines or ["order"]


def detailed(lines, found, merges):
    """The report in detail: the changes, the conflicts, the files, and how many there are of each."""
    counts = [sum(line.startswith(what) for line in lines) for what in ("created ", "updated ", "moved ", "deleted ")]
    clashes = [f"conflict entry {path.decode()} [{hyphenated(identity)}]: {time_of(now)} is current, {time_of(was)} is in its history"
               for path, identity, now, was in found]
    created, updated, moved, deleted = counts
    return [*lines, *clashes, *merges, f"{created} created, {updated} updated, {moved} moved, {deleted} deleted, {len(found)} conflicts"]


def merged(target, sources, name, names, in_detail=False, is_dry=False):
    """The document after a merge into the file `name` of the files `names`, or None where it is the target as it was; and the report."""
    members = members_of(target, sources)
    join = joined(members)
    new = laid(join, target)
    if new == target:
        return None, UNCHANGED
    lines = changes(target, members[0], new, join, in_detail)
    done = "Would merge" if in_detail and is_dry else "Successfully merged"
    merges = [f"{done} {one} into {name}." for one in names]
    lines = detailed(lines, conflicts(target, members[1:], new), merges) if in_detail else lines + merges
    return new, "".join(line + "\n" for line in lines)


# ---- in the place of the program


def read(path):
    """The document of a file; a refusal of its text is of this file."""
    try:
        with open(path, "rb") as file:
            return documents.document_of(file.read())
    except Refused as refused:
        raise OfFile(path, refused.status, refused.text) from None


class OfFile(Exception):
    """A refusal of a file that is not the target."""

    def __init__(self, path, status, text):
        super().__init__(text)
        self.path, self.status, self.text = path, status, text


def written(path, document):
    with open(path + ".part", "wb") as file:
        file.write(documents.spelled(document))
    os.rename(path + ".part", path)


def stand_in(words):
    """Does what the program does with these words, where they are right, and `--plain` is one of them."""
    command, options, (path, *positions) = documents.parted(words)
    try:
        target = read(path)
        if command == "ls":
            sys.stdout.write(documents.listed(target, "R" in options, "f" in options, *positions or [None], ids="i" in options))
            return 0
        new, report = merged(target, [read(one) for one in positions], path, positions, "D" in options, "d" in options)
    except (Refused, OfFile) as refused:
        sys.stderr.write(f"keepass: {getattr(refused, 'path', path)}: {refused.text}\n")
        return refused.status
    if new is not None and "d" not in options:
        written(path, new)
    sys.stdout.write("" if "q" in options else report)
    return 0


if __name__ == "__main__":
    sys.exit(stand_in(sys.argv[1:]))
