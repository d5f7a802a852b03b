"""The examples of docs/FORMATS.md: its script with its output, a line for each cause, outputs with their verdicts, queries with
their answers and refusals, what a command prints, and the bytes of a journal."""
import os
import re

import journal
import judge
import model
from lines import ddl

FENCE = re.compile(r"^```(script|output|judged|shown|console|journal)( [^\n]*)?\n(.*?)^```$", re.M | re.S)
CAUSE = re.compile(r"^\| ([A-Z]\w+(?: [A-Z]\w+)?) \| [^|]* \| `(\{.*)` \|$", re.M)
BYTES = re.compile(r"(?:[0-9a-f]{2} )*[0-9a-f]{2}(?=  |$)")
QUERY = re.compile(r"^\| `(2[01] [^`]*)` \| [^|]* \| ([^ |]*) \| `(SELECT [^`]*)` \|$", re.M)
STATEMENT = re.compile(r"^\| [0-9]+ \| (\w+)(?:\([^)]*\))? \| [^|]* \| `([A-Z]{4,} .*)` \|$", re.M)


def parts_of(path):
    """The script, the other fences as (what, words, text), the lines that are refused with their causes, and the queries with their answers."""
    with open(path, encoding="utf-8") as file:
        text = file.read()
    fences = [(what, words.split(), content) for what, words, content in FENCE.findall(text)]
    scripts = [content.encode() for what, _, content in fences if what == "script"]
    lines = [(cause, line.encode() + b"\n") for cause, line in CAUSE.findall(text)]
    lines += [(f"Schema {refusal}", ddl(statement, 4)) for refusal, statement in STATEMENT.findall(text)]
    fences = [it for it in fences if it[0] != "script"]
    queries = [(now, query, answer + "\n") for answer, now, query in QUERY.findall(text)]
    queries += [(words[0], " ".join(words[1:]), content) for what, words, content in fences if what == "shown"]
    return scripts, [it for it in fences if it[0] != "shown"], lines, queries


def check_refused(note, room, script, cause, line):
    want = f"51 BadScript {len(script.splitlines()) + 1} {cause}\n"
    window = ("S", "2024-05-01T00:00:01Z", "2024-05-01T00:00:10Z")
    own = model.replay(script + line, *window)
    note(own.console == want, f"FORMATS.md, {line}: the model", own.console)
    room.clear()
    ran = room.run(["replay", room.put("script", script + line), "journal", "output", *window])
    note(ran.returncode == 51 and ran.stdout.decode() == want, f"FORMATS.md, {line}", str(ran)[:400])


def check_journal(note, room, top, name, window, content):
    """Lines of bytes, each with what they are behind two blanks."""
    data = b"".join(bytes.fromhex(BYTES.match(it)[0]) for it in content.splitlines())
    with open(os.path.join(top, name), "rb") as file:
        script = file.read()
    own = model.replay(script, *window)
    saw = journal.unlike(data, own.output, own.entries)
    note(saw is None, f"FORMATS.md, the journal of {name}: the reader", saw)
    ran = room.run(["replay", room.put("script", script), "journal", "output", *window])
    note(ran.returncode == 0 and room.read("journal") == data, f"FORMATS.md, the journal of {name}", (str(ran)[:400], (room.left("journal") or b"").hex()))


def check_fence(note, room, top, script, what, words, content):
    room.clear()
    if what == "journal":
        check_journal(note, room, top, words[0], words[1:], content)
        return
    if what == "console":
        ran = room.run(words)
        note(ran.returncode == 0 and ran.stdout.decode() == content, f"FORMATS.md, {words}", str(ran)[:400])
        return
    window, path = words[:3], room.put("script", script)
    if what == "output":
        # one with a moment is of a replay that pauses
        status, output = 10 if "--moment" in words else 0, content.encode()
        own = model.replay(script, *words)
        note(own.status == status and own.output == output, f"FORMATS.md, replay of {words}: the model", own.console)
        saw = judge.wrong(status, output, [it.line for it in model.changes(script, *window)], window[2])
        note(saw is None, f"FORMATS.md, replay of {words}: the judge", saw)
        ran = room.run(["replay", path, "journal", "output", *words])
        note(ran.returncode == status and room.read("output") == output, f"FORMATS.md, replay of {words}", str(ran)[:400])
        return
    want = " ".join(words[3:]) + "\n"
    own = model.check(script, content.encode(), *window)
    note(own.console == want, f"FORMATS.md, check of {content}: the model", own.console)
    ran = room.run(["check", path, room.put("output", content.encode()), *window])
    note(ran.returncode == own.status and ran.stdout.decode() == want, f"FORMATS.md, check of {content}", str(ran)[:400])


def check_query(note, room, script, now, query, want):
    own = model.show(script, now, query)
    note(own.console == want, f"FORMATS.md, {query} at {now}: the model", own.console)
    room.clear()
    ran = room.run(["show", room.put("script", script), now, query])
    note(ran.returncode == own.status and ran.stdout.decode() == want, f"FORMATS.md, {query} at {now}", str(ran)[:400])


def check(note, room, top, left_out=()):
    """Without the commands that are left out."""
    scripts, fences, lines, queries = parts_of(os.path.join(top, "docs", "FORMATS.md"))
    counts = len(scripts), len(fences), len(lines), len(queries)
    note(counts[0] == 1 and len(fences) >= 9 and len(lines) >= 30 and len(queries) >= 16, "FORMATS.md has its examples", counts)
    for fence in fences:
        if fence[0] == "console" and fence[1][0] in left_out:
            continue
        check_fence(note, room, top, scripts[0], *fence)
    for cause, line in lines:
        check_refused(note, room, scripts[0], cause, line)
    for query in queries:
        check_query(note, room, scripts[0], *query)
