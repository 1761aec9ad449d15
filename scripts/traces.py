"""Reads what the program writes: printed lines, heap lines and the last line, as dictionaries."""
import re
import sys

ENDINGS = [
    (r"= (done|waiting|until) at (\d+) steps (\d+) live (\d+)", ("ending", "moment", "steps", "live")),
    (r"= (steps|stuck) at (\d+) steps (\d+)", ("ending", "moment", "steps")),
    (r"= (error) (K\d) ([\d:]+) at (\d+) steps (\d+)", ("ending", "code", "place", "moment", "steps")),
    (r"= (image) (I\d+) (\d+)", ("ending", "code", "offset")),
    (r"= (read) (.*)", ("ending", "file")),
    (r"= (ok|words|memory)", ("ending",)),
]
NUMBERS = {"moment", "steps", "live", "offset", "line", "column", "cell", "class"}


def with_names(kind, names, values):
    return {"kind": kind, **{name: int(it) if name in NUMBERS else it for name, it in zip(names, values)}}


def plain(text):
    """A printed text as it was: `\\n` is a line feed again, and `\\\\` a backslash."""
    return re.sub(r"\\(.)", lambda it: "\n" if it[1] == "n" else it[1], text)


def read_line(line):
    printed = re.fullmatch(r"(\d+) (.*)", line, re.S)
    if printed:
        return {"kind": "print", "moment": int(printed[1]), "text": plain(printed[2])}
    for pattern, names in ENDINGS:
        match = re.fullmatch(pattern, line)
        if match:
            return with_names("end", names, match.groups())
    cell = re.fullmatch(r"@(\d+) (?:(event)|(var) (.*)|(obj) (\d+)(?: (.*))?)", line)
    if cell:
        number, event, variable, value, thing, of_class, fields = cell.groups()
        if event:
            return {"kind": "cell", "cell": int(number), "what": "event"}
        if variable:
            return {"kind": "cell", "cell": int(number), "what": "var", "value": value}
        return {"kind": "cell", "cell": int(number), "what": "obj", "class": int(of_class), "fields": fields or ""}
    refused = re.fullmatch(r"(?:(.*):)?(\d+):(\d+) (E\d{3}) (.*)", line)
    if refused:
        found = with_names("refusal", ("file", "line", "column", "code", "text"), refused.groups())
        return {name: it for name, it in found.items() if it is not None}
    return {"kind": "other", "text": line}


def lines_of(path):
    if path == "-":
        data = sys.stdin.buffer.read()
    else:
        with open(path, "rb") as file:
            data = file.read()
    lines = data.decode("utf-8", "replace").split("\n")
    return lines[:-1] if lines[-1] == "" else lines


def ending_text(end):
    """An ending in a reader's words."""
    if end is None:
        return "no last line"
    word = end["ending"]
    told = {
        "done": "over", "waiting": "waits for what will not come", "until": "at its horizon",
        "steps": "no step is left", "stuck": "stuck", "ok": "accepted", "words": "no command", "memory": "no memory",
        "read": "a file was not read", "image": "no image",
    }
    text = f"error {end['code']} at {end['place']}" if word == "error" else told[word]
    return text + (f", {end['steps']} steps" if "steps" in end else "")


def run_of(path, name=None):
    """A run: its name, its printed lines, and its end."""
    found = [read_line(it) for it in lines_of(path)]
    end = next((it for it in found if it["kind"] in ("end", "refusal")), None)
    if end is not None and end["kind"] == "refusal":
        end = {"ending": "ok", "refusal": f"{end['line']}:{end['column']} {end['code']} {end['text']}"}
    printed = [[it["moment"], it["text"]] for it in found if it["kind"] == "print"]
    last = max([it[0] for it in printed] + [end.get("moment", 0) if end else 0])
    told = end["refusal"] if end and "refusal" in end else ending_text(end)
    return {"name": name or ("run" if path == "-" else path), "lines": printed, "last": last, "ending": told}
