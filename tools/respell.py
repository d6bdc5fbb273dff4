#!/usr/bin/env python3
"""Respells this repository's own definitions and lemmas as today's Rattle spells words: `task-count` is `task_count`.

usage: python3 tools/respell.py     at the top, once, behind the toolchain's port.py

A name is one of the repository's own where no file imports it from outside. Names that the toolchain makes keep their dashes, and so do text in quotes and prose:
in comments and pages only what stands between ** or ` is respelled. A dash at the end of a name is a sign, as in `refused- 7`, and stays.
"""

import os
import re
import subprocess

WORD = r"[^\s(){}\[\];,.:λ→×«»|\"`*/◌=<>]"
TOKEN = re.compile(WORD + "+")
DASH = re.compile(r"(?<=[\w'])-(?=[\w'])")
MADE = re.compile(r"^(Need|After|InvT|MeasureT|invariant|decreases|loop|returns|overflow|bounds|slice|nonzero|enum|ghost)-|^enum-told|-requires(-\d+)?$")


def listed(ending):
    out = subprocess.run(["git", "ls-files", "-co", "--exclude-standard"], capture_output=True, text=True, check=True).stdout
    return sorted({f for f in out.splitlines() if f.endswith(ending) and os.path.isfile(f)})


def text_of(path):
    with open(path, encoding="utf-8") as f:
        return f.read()


def parts(line, comment):
    """The line's code, and its comment with the sign that begins it; no sign stands inside quotes."""
    quoted = False
    for i, c in enumerate(line):
        if c == '"' and (i == 0 or line[i - 1] != "\\"):
            quoted = not quoted
        elif not quoted and line.startswith(comment, i):
            return line[:i], line[i:]
    return line, ""


def own_names(crates):
    used, from_outside = set(), set()
    for path in listed(".antt"):
        for line in text_of(path).splitlines():
            code = parts(line, "--")[0]
            found = re.match(r"\s*(?:pub )?use (\S+?)\.\{(.*)\}", code)
            if found:
                words = found.group(1).split(".")
                if words[0] != "Rattle" or words[1] not in crates:
                    from_outside |= {n.strip().split(" as ")[0] for n in found.group(2).split(",")}
            for piece in code.split('"')[::2]:
                used |= {t for t in TOKEN.findall(piece) if DASH.search(t) and not t[0].isdigit()}
    return {t for t in used - from_outside if not MADE.search(t)}


def respelled(code, names):
    def turned(found):
        t = found.group(0)
        return DASH.sub("_", t) if t in names else t

    pieces = code.split('"')
    pieces[::2] = [TOKEN.sub(turned, p) for p in pieces[::2]]
    return '"'.join(pieces)


def prose(text, names):
    return re.sub(r"`[^`\n]*`|\*\*[^*\n]*\*\*", lambda m: respelled(m.group(0), names), text)


def in_source(text, comment, names):
    lines = []
    for line in text.split("\n"):
        code, said = parts(line, comment)
        lines.append(respelled(code, names) + prose(said, names))
    return "\n".join(lines)


def in_edit(text, names):
    return "\n".join(respelled(l, names) if re.match(r"(old|new): ", l) else l for l in text.split("\n"))


def main():
    names = own_names({*os.listdir("crates")})
    turns = [(listed(".antt"), lambda t: in_source(t, "--", names)), (listed(".rt"), lambda t: in_source(t, "//", names)),
             (listed(".edit"), lambda t: in_edit(t, names)), (listed(".md"), lambda t: prose(t, names))]
    count = 0
    for paths, turn in turns:
        for path in paths:
            before = text_of(path)
            after = turn(before)
            if after != before:
                count += 1
                with open(path, "w", encoding="utf-8") as f:
                    f.write(after)
    print(f"respell: {len(names)} names, {count} files")


if __name__ == "__main__":
    main()
