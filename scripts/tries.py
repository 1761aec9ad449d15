"""Runs several commands by the program as `./try` compiles it: one build for all, nothing proved."""
import os
import re
import secrets
import shutil
import subprocess
import tempfile

SECONDS = "300"
FOLDER = os.path.join(os.path.dirname(os.path.realpath(__file__)), "..", "crates", "verse_cli")


def run_all(commands, folder="."):
    """For each command, which is a list of words, its status and what it wrote, and None where it gave no answer.
    Names of files are those in the folder. The toolchain runs the program elsewhere, so each file has another name
    there, which no output can hold by chance; what is written gets the name again. The second part of the answer is
    what the toolchain said."""
    token = secrets.token_hex(12)
    names, data = {}, []
    with tempfile.TemporaryDirectory() as room:
        for at, words in enumerate(commands):
            given, are_files = words[:1], True
            for word in words[1:]:
                are_files = are_files and word != "" and not word.startswith("-")
                if are_files and word not in names:
                    names[word] = f"file-{token}-{len(names)}-"
                    path = os.path.realpath(os.path.join(folder, word))
                    if os.path.isfile(path):
                        data += ["--data", f"{names[word]}={path}"]
                given.append(names[word] if are_files else word)
            if any("\n" in it for it in given):
                return [None] * len(commands), "a word with a line feed cannot be given\n"
            with open(os.path.join(room, f"{token}-{at}"), "w", encoding="utf-8"):
                pass
            with open(os.path.join(room, f"{token}-{at}.args"), "wb") as file:
                file.write(b"".join(os.fsencode(it) + b"\n" for it in given))
        rt = shutil.which("rt")
        if rt is None:
            return [None] * len(commands), "the Rattle toolchain is missing: rt is not on the path\n"
        ran = subprocess.run(
            [rt, "try", "--seconds", SECONDS, *data, "--cases", room], cwd=FOLDER, stdin=subprocess.DEVNULL,
            stdout=subprocess.PIPE, stderr=subprocess.PIPE, check=False,
        )
    said = ran.stderr.decode("utf-8", "replace")
    status = {int(at): int(it) for at, it in re.findall(rf"(?m)^case={token}-(\d+) run=ended status=(\d+)\b", said)}
    parts = re.split(rb"(?m)^== " + token.encode() + rb"-(\d+)\n", ran.stdout)
    wrote = {int(at): out for at, out in zip(parts[1::2], parts[2::2])}
    found = []
    for at in range(len(commands)):
        out = wrote.get(at, b"")
        for name, stands in names.items():
            out = out.replace(stands.encode(), os.fsencode(name))
        found.append((status[at], out) if at in status else None)
    return found, said
