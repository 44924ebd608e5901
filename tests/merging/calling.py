"""Calls of a program that merges files, each compared with what the model of this folder says of it: status, report or refusal, and every
byte of what is written. No file but the target may be touched, and the target only where it is written. Works on files of the folder that
it is called in."""
import os, re, subprocess, sys

sys.dont_write_bytecode = True
here = os.path.dirname(os.path.realpath(__file__))
sys.path.insert(0, here)
import joining
from joining import documents

moving = documents.loaded("moving", "against")


class Plain(moving.Plain):
    """A document by itself."""

    def __init__(self, file):
        self.file = file


class Sealed(moving.Sealed):
    """A document in a database under a password and a key file of its own; an empty one is none."""

    def __init__(self, file, password, key_file="", number=0):
        super().__init__(password, key_file)
        self.file, self.password, self.key_file, self.number = file, password, key_file, number

    def put(self, text):
        super().put(text, self.number)


class Trial:
    """Files by their names, and the calls on them. `way` says how the databases of a call are opened, where they are databases."""

    def __init__(self, program):
        self.program, self.files, self.count, self.wrong = program, {}, 0, 0

    def put(self, vault, text):
        vault.put(text)
        self.files[vault.file] = vault

    def credentials(self, letters, target, sources):
        """The options and the input by which the files of a call are opened."""
        target = self.files[target]
        if not isinstance(target, Sealed):
            return ["--plain"], ""
        options, lines = list(target.options), target.line
        sources = [self.files[one] for one in sources]
        if "s" in letters or not sources:
            return options, lines
        if sources[0].key_file:
            options += ["--key-file-from", sources[0].key_file]
        if not sources[0].password:
            options.append("--no-password-from")
        return options, lines + "".join(one.line for one in sources)

    def call(self, words, letters, target, sources):
        options, lines = self.credentials(letters, target, sources)
        call = subprocess.run([self.program, words[0], *options, *words[1:]], input=lines.encode(), capture_output=True)
        return call.returncode, call.stdout.decode(), call.stderr.decode()

    def said(self, letters, target, sources):
        """What the model says: status, output, line, and the document that is written, if one is."""
        try:
            given = [self.files[one].document for one in sources]
            new, report = joining.merged(self.files[target].document, given, target, sources, "D" in letters, "d" in letters)
            return 0, "" if "q" in letters else report, "", None if "d" in letters else new
        except joining.Refused as refused:
            return refused.status, "", f"keepass: {target}: {refused.text}\n", None

    def made(self, words, wanted=None):
        """Makes a call, and gives what is wrong with it; `wanted` is what was written down of it by hand."""
        _, letters, (target, *sources) = documents.parted(words)
        before = {name: moving.state(name) for name in self.files}
        *answer, new = self.said(letters, target, sources)
        found = self.call(words, letters, target, sources)
        self.count += 1
        faults = [f"{one!r} instead of {due!r}" for one, due in zip(found, answer) if one != due]
        if wanted is not None and list(wanted) != answer:
            faults.append(f"the table says {wanted}, the model {answer}")
        for name in self.files:
            after = moving.state(name)
            if after[4]:
                faults.append(f"{name}: a draft is left")
            if new is not None and name == target and found[0] == 0:
                faults += [f"{name}: {fault}" for fault in self.files[name].differences(new)]
                if after[1] == before[name][1] or after[2] != before[name][2]:
                    faults.append(f"{name}: not a new file with the permissions of the old one")
            elif after != before[name]:
                faults.append(f"{name}: the file was changed")
        if new is not None and not faults:
            self.files[target].document = new
        return faults

    def report(self, name, words, faults):
        if faults:
            self.wrong += 1
            print(f"{name}: {' '.join(map(repr, words))}")
            print("".join(f"    {fault}\n" for fault in faults), end="", flush=True)
        return bool(faults)


def whole(text):
    """A text in which `@2` means an id of sixteen bytes 2 as a report has it."""
    return re.sub(r"@(\d+)", lambda found: joining.hyphenated(bytes([int(found[1])] * 16)), text)
