"""Calls by the program of crates/call_rows, over objects in memory. Used by `failing` and `windows`."""
import subprocess, sys

# How many bytes of a file stand on a line.
PART = 32768


class Run:
    """What a call did, as the program of rows prints it. `longest` is the most bytes that it wanted of a file at once, where the row measures
    that."""

    def __init__(self, lines):
        self.status = int(lines[0].rsplit(": ", 1)[1])
        rest = dict(line.strip().partition(" ")[::2] for line in lines[1:] if not line.startswith("    file "))
        self.out, self.err, self.left = rest.get("out", ""), rest.get("err", ""), int(rest.get("left", 0))
        self.files = [line for line in lines[1:] if line.startswith("    file ")]
        self.drawn, self.longest = int(rest.get("drawn", 0)), int(rest["longest"]) if "longest" in rest else None

    def __eq__(self, other):
        return vars(self) == vars(other)

    def is_but_for(self, other, *names):
        """Whether all is the same but what has these names."""
        return all(value == vars(other)[name] for name, value in vars(self).items() if name not in names)

    def __repr__(self):
        return f"status {self.status}, {self.out[:60]!r}, {self.err!r}, {self.files}"


def asked(program, texts, rows):
    """The runs of each row, one for each of its calls. The texts that rows name stand before them."""
    lines = [f"hex {name} {data[at : at + PART].hex()}" for name, data in texts.items() for at in range(0, max(len(data), 1), PART)]
    ended = subprocess.run([program], input="\n".join([*lines, "moment 63839664000", *rows, ""]).encode(), capture_output=True)
    if ended.returncode or ended.stderr:
        sys.exit(f"{program}: {ended.stdout[-300:]!r} {ended.stderr[-300:]!r}")
    found = []
    for line in ended.stdout.decode().splitlines():
        if not line.startswith("  "):
            found.append([])
        elif line.startswith("    "):
            found[-1][-1].append(line)
        else:
            found[-1].append([line])
    return [[Run(call) for call in row] for row in found]
