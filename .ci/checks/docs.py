"""Compares documents with examples, definitions and sources; docs.sh runs it with the path of the proved program."""
import json
import os
import re
import subprocess
import sys
import tempfile

PROGRAM = sys.argv[1]
DOCUMENTS = subprocess.run(["git", "ls-files", "*.md"], capture_output=True, text=True, check=True).stdout.split()
passed = 0
failures = []


def text_of(path):
    with open(path, encoding="utf-8") as file:
        return file.read()


def check(holds, what):
    global passed
    if holds:
        passed += 1
    else:
        failures.append(what)


def blocks(text):
    """The fenced blocks: line, info string, lines."""
    found, lines, at = [], text.split("\n"), 0
    while at < len(lines):
        if lines[at].startswith("```"):
            end = next((it for it in range(at + 1, len(lines)) if lines[it] == "```"), len(lines))
            found.append((at + 1, lines[at][3:].strip(), lines[at + 1 : end]))
            at = end
        at += 1
    return found


def without_blocks(text):
    return re.sub(r"(?ms)^```.*?^```$", "", text)


def outer(lines, path):
    """Whether the lines stand together in the file, whole lines as they are."""
    return "\n".join(["", *lines, ""]) in "\n" + text_of(path) + "\n"


def listed(name):
    """The words and the output of an example; further files are those of examples/."""
    args = f"examples/{name}.args"
    words = text_of(args).split("\n")[:-1] if os.path.exists(args) else []
    words = [f"examples/{it}" if it.endswith(".verse") else it for it in words]
    return words, text_of(f"examples/{name}.out").split("\n")[:-1]


def shown_run(words, where):
    """What stands below a command: an example's output, or what the program writes."""
    match = re.fullmatch(r"examples/(\w+)\.verse", words[1] if len(words) > 1 else "")
    if words[:1] == ["run"] and match and os.path.exists(f"examples/{match[1]}.out"):
        args, out = listed(match[1])
        if words[2:] == args:
            return out
    ran = subprocess.run([PROGRAM, *words], capture_output=True, text=True, stdin=subprocess.DEVNULL, timeout=60)
    return ran.stdout.split("\n")[:-1]


def parts_of_examples():
    for document in DOCUMENTS:
        for line, info, lines in blocks(text_of(document)):
            words = info.split()
            where = f"{document}:{line}"
            if len(words) == 2 and words[1].startswith("examples/"):
                check(os.path.exists(words[1]) and outer(lines, words[1]), f"{where}: this is no part of {words[1]}")
            if words[:1] == ["console"]:
                at = 0
                while at < len(lines):
                    if not lines[at].startswith("$ "):
                        failures.append(f"{where}: a line before the first command")
                        break
                    end = next((it for it in range(at + 1, len(lines)) if lines[it].startswith("$ ")), len(lines))
                    command = re.sub(r"\s+#.*", "", lines[at][2:]).split()
                    if command[0] in ("./verse", "./try"):
                        wanted = shown_run(command[1:], where)
                        check(wanted == lines[at + 1 : end], f"{where}: `{lines[at][2:]}` does not write this, but {wanted}")
                    at = end


def slug(heading, seen):
    plain = re.sub(r"[^\w\- ]", "", heading.strip().lower().replace("`", "")).replace(" ", "-")
    count = seen.get(plain, 0)
    seen[plain] = count + 1
    return f"{plain}-{count}" if count else plain


def links():
    anchors = {}
    for document in DOCUMENTS:
        seen = {}
        headings = re.findall(r"(?m)^#{1,6} (.*)$", without_blocks(text_of(document)))
        anchors[document] = {slug(it, seen) for it in headings}
    for document in DOCUMENTS:
        for target in re.findall(r"\]\(([^)\s]+)\)", without_blocks(text_of(document))):
            if re.match(r"[a-z]+:", target):
                continue
            path, _, anchor = target.partition("#")
            file = os.path.normpath(os.path.join(os.path.dirname(document), path)) if path else document
            well = os.path.exists(file) and (not anchor or anchor in anchors.get(file, ()))
            check(well, f"{document}: the link {target} leads nowhere")


def section(text, heading):
    return re.split(r"(?m)^## ", text.split(f"\n## {heading}\n", 1)[1])[0] if f"\n## {heading}\n" in text else ""


TIME = r"\d[\d.,]*(?: to [\d.,]+)? (?:second|minute|hour)s?"


def times():
    """The times that README.md says are those of TESTED.md, each said once."""
    measured = re.findall(TIME, section(text_of("docs/TESTED.md"), "Times"))
    told = re.findall(TIME, text_of("README.md"))
    check(len(told) > 0, "README.md says no times that this check can read")
    for time in told:
        check(time in measured, f"README.md: {time} is none of the times of docs/TESTED.md")
        check(told.count(time) == 1, f"README.md: {time} stands there twice")


def crates():
    """Each crate with all below it, as crates.txt has them."""
    lines = re.findall(r"(?m)^(\w+)[^\n:]*:(.*)$", text_of("crates.txt"))
    names = {name for name, _ in lines}
    below = {}
    for name, uses in lines:
        direct = [it for it in uses.split() if it in names]
        below[name] = set(direct).union(*(below.get(it, set()) for it in direct))
    return below


def named_in(label, below):
    """The crates that a box of a picture names; `_x` stands behind the family of the one before it."""
    found = []
    for word in re.findall(r"\w+", label.replace("<br>", " ")):
        if word.startswith("_") and found:
            word = next((it for it in below if it.endswith(word) and it.split("_")[:2] == found[-1].split("_")[:2]), word)
        if word in below:
            found.append(word)
    return found


def pictures():
    """The pictures of ARCHITECTURE.md: small, each arrow between crates as crates.txt has it, each crate in one of
    them; and the longest chains."""
    below, text = crates(), text_of("docs/ARCHITECTURE.md")
    shown = set()
    for line, info, lines in blocks(text):
        if info != "mermaid":
            continue
        where = f"docs/ARCHITECTURE.md:{line}"
        labels = dict(re.findall(r"(\w+)\[\"?([^\]\"]*)\"?\]", "\n".join(lines)))
        check(len(labels) <= 20, f"{where}: this picture has {len(labels)} boxes")
        boxes = {box: named_in(label, below) for box, label in labels.items()}
        shown |= {crate for named in boxes.values() for crate in named}
        for left, right in re.findall(r"(?m)^ *(\w+)(?:\[[^\]]*\])? --> (\w+)", "\n".join(lines)):
            for crate in boxes.get(left, []):
                stands = [it for it in boxes.get(right, []) if crate in below[it]]
                check(stands or not boxes.get(right), f"{where}: what stands in {right} does not stand on {crate}")
    for crate in below:
        check(crate in shown, f"docs/ARCHITECTURE.md: {crate} is in no picture")
    depth = {}
    for crate in below:
        depth[crate] = 1 + max((depth[it] for it in below[crate]), default=0)
    deepest = max(depth.values(), default=0)
    told = re.search(r"(?m)^\*\*The longest chain\*\* has (\d+) crates.*$", text)
    check(told is not None and int(told[1]) == deepest, f"docs/ARCHITECTURE.md: the longest chain has {deepest} crates")
    for chain in re.findall(r"(?:`\w+` ?){3,}", told[0] if told else ""):
        named = re.findall(r"\w+", chain)
        well = len(named) == deepest and all(low in below[high] for low, high in zip(named, named[1:]))
        check(well, f"docs/ARCHITECTURE.md: {chain} is no longest chain")


def operation(text):
    """`o.Int (negsuc 0)` as `Int -1`."""
    words = re.sub(r"\(negsuc (\d+)\)", lambda it: str(-1 - int(it[1])), re.sub(r"\(pos (\d+)\)", r"\1", text)).split()
    return " ".join([words[0].removeprefix("o."), *words[1:]])


def codes_of_forms():
    """The table of the chapter 'The code of a form' has the rows of the laws, in their order."""
    shown = []
    for row in re.findall(r"(?m)^\| (.*) \|$", section(text_of("docs/ARCHITECTURE.md"), "The code of a form"))[1:]:
        form, *operations = re.findall(r"`([^`]*)`", row) or [""]
        shown += [(form, operations)] if form else []
    laws = text_of("crates/lower_code_laws/specs/Forms.antt")
    rows = re.findall(r"(?m)^  -- (.*)\n  pub \w+ :((?:.*\n)(?:      .*\n)*)", laws)
    held = [(form, [operation(it.strip()) for it in law.split("≡")[1].split("∷")[:-1]]) for form, law in rows]
    check(len(held) > 90, "crates/lower_code_laws/specs/Forms.antt has no rows that this check can read")
    for form, operations in held:
        check((form, operations) in shown, f"docs/ARCHITECTURE.md, The code of a form: no row has `{form}` with {operations}")
    check([form for form, _ in shown] == [form for form, _ in held], "docs/ARCHITECTURE.md, The code of a form: other rows than the laws")


def refusals():
    """The table of refusals against the texts that the program has."""
    rows = dict(re.findall(r"(?m)^\| E(\d{3}) (.*?) \|", section(text_of("docs/LANGUAGE.md"), "All refusals")))
    texts = re.findall(r'(?m)^ *(\d+) => "(.*)",$', text_of("crates/verse_base/src/rule_texts.rt"))
    check(len(texts) > 0, "crates/verse_base/src/rule_texts.rt has no texts that this check can read")
    for number, text in texts:
        told = rows.pop(f"{int(number):03}", None)
        check(told == text, f"docs/LANGUAGE.md, All refusals: E{int(number):03} is `{text}`, and the table has {told}")
    for number in rows:
        failures.append(f"docs/LANGUAGE.md, All refusals: the program has no E{number}")


def short_examples():
    """The short examples: a block of code, and below it what it writes. Lines without a Main are the body of one; an
    ending line `= done` may be left out."""
    total = 0
    with tempfile.TemporaryDirectory() as folder:
        for document in DOCUMENTS:
            found = blocks(text_of(document))
            for (line, info, lines), below in zip(found, found[1:] + [(0, "", [])]):
                if info != "verse":
                    continue
                kind, *words = below[1].split() or [""]
                check(kind == "text", f"{document}:{line}: nothing says what this example writes")
                if not any(it.startswith("Main") for it in lines):
                    lines = ["Main():void =", *[f"    {it}" for it in lines]]
                file = f"{folder}/example.verse"
                with open(file, "w", encoding="utf-8") as out:
                    out.write("\n".join([*lines, ""]))
                command = [PROGRAM, "run", file, *words]
                wrote = subprocess.run(command, capture_output=True, text=True, stdin=subprocess.DEVNULL, timeout=60).stdout
                got = wrote.split("\n")[:-1]
                total += 1
                shows_ending = below[2][-1:] and below[2][-1].startswith("= ")
                if got[-1:] and got[-1].startswith("= done ") and not shows_ending:
                    got.pop()
                check(got == below[2], f"{document}:{line}: this example writes {got}")
    print(f"{total} short examples")


def refused_examples():
    """Each example of the table of refusals, through the program."""
    language = text_of("docs/LANGUAGE.md")
    rows = re.findall(r"(?m)^\| E(\d{3}) ([^|]*?) \| [^|]* \| `([^|]*)` \| (\d+:\d+) \|$", section(language, "All refusals"))
    check(len(rows) >= 36, "docs/LANGUAGE.md, All refusals: this check can read too few examples")
    with tempfile.TemporaryDirectory() as folder:
        for number, text, example, place in rows:
            file = f"{folder}/example.verse"
            with open(file, "w", encoding="utf-8") as out:
                out.write(example)
            ran = subprocess.run([PROGRAM, "run", file], capture_output=True, text=True, stdin=subprocess.DEVNULL, timeout=60)
            wanted = re.escape(f"{place} E{number} {text}\n")
            what = f"docs/LANGUAGE.md, All refusals: the example of E{number} writes {ran.stdout.strip()}"
            check(ran.returncode == 1 and re.fullmatch(wanted, ran.stdout) is not None, what)


def base_program():
    """The program at whose end the examples of REFUSALS.md stand."""
    return next((lines for _, info, lines in blocks(text_of("docs/REFUSALS.md")) if info == "verse"), [])


def as_file(cell):
    """The source of an example in a table: its lines are code, with <br> between them."""
    lines = [it.strip()[1:-1] for it in cell.split("<br>")]
    whole = any(re.search(r"(?i)main\(", it) for it in lines)
    return "\n".join([*([] if whole else base_program()), *(it if whole else f"    {it}" for it in lines), ""])


def checked(source, folder):
    file = f"{folder}/example.verse"
    with open(file, "w", encoding="utf-8") as out:
        out.write(source)
    ran = subprocess.run([PROGRAM, "check", file], capture_output=True, text=True, stdin=subprocess.DEVNULL, timeout=60)
    return ran.stdout.rstrip("\n")


def example_of_a_mistake(where, code, wrong, told_at, right, folder):
    """The wrong one is refused with the code where it says, and the right one is accepted."""
    source = as_file(wrong)
    wrote = checked(source, folder)
    found = re.fullmatch(r"(\d+):(\d+) (E\d{3}) .*", wrote)
    line = source.split("\n")[int(found[1]) - 1].encode()[int(found[2]) - 1 :].decode("utf-8", "replace") if found else ""
    well = found and found[3] == code and line.startswith(told_at.strip("`")) and told_at != "``"
    check(well, f"{where}: {wrong} writes {wrote}, at `{line[:20]}`, and not {code} at {told_at}")
    answer = checked(as_file(right), folder)
    check(answer == "= ok", f"{where}: {right} writes {answer}")


ROW = r"(?m)^\| (`.*`) \| {} \| (`.*`) \|$"


def mended_examples():
    """REFUSALS.md: a section for each code, and its examples; the habits in LANGUAGE.md."""
    text, language = text_of("docs/REFUSALS.md"), text_of("docs/LANGUAGE.md")
    told = dict(re.findall(r"(?m)^\| E(\d{3}) (.*?) \|", section(language, "All refusals")))
    sections = dict(re.findall(r"(?m)^## E(\d{3}) (.*)$", text))
    check(sections == told and told, f"docs/REFUSALS.md: its sections are others than the rows of All refusals: {set(told.items()) ^ set(sections.items())}")
    with tempfile.TemporaryDirectory() as folder:
        for number, name in sections.items():
            part = section(text, f"E{number} {name}")
            where = f"docs/REFUSALS.md, E{number}"
            check(part.count("**Mend it:** ") == 1, f"{where}: it has no sentence that says how to mend it")
            rows = re.findall(ROW.format("(`.*`)"), part)
            check(len(rows) == part.count("\n| `") and (len(rows) >= 2 or "| Wrong |" not in part), f"{where}: it has too few examples")
            for wrong, told_at, right in rows:
                example_of_a_mistake(where, f"E{number}", wrong, told_at, right, folder)
        part = section(language, "You write, it says")
        rows = re.findall(ROW.format(r"(E\d{3}) at (`.*`)"), part)
        check(len(rows) == part.count("\n| `") and len(rows) >= 30, "docs/LANGUAGE.md, You write, it says: this check can read too few rows")
        explain = {"__name__": "explain", "__file__": "scripts/explain"}
        exec(compile(text_of("scripts/explain"), "scripts/explain", "exec"), explain)
        for wrong, code, told_at, right in rows:
            example_of_a_mistake("docs/LANGUAGE.md, You write, it says", code, wrong, told_at, right, folder)
            lines = as_file(wrong).split("\n")
            place = next((at for at in range(len(lines) - 1, -1, -1) if told_at[1:-1] in lines[at]), 0)
            before, _, at = lines[place].rpartition(told_at[1:-1])
            known = code != "E030" or explain["hint_of"](code, before, told_at[1:-1] + at, lines[place - 1])
            check(known, f"scripts/explain: it has no sentence for {wrong}")


def spellings(enumeration):
    source = text_of("crates/verse_lex/src/tokens.rt")
    body = re.search(rf"pub enum {enumeration} \{{(.*?)\n\}}", source, re.S)
    body = body[1] if body else ""
    names = re.findall(r"(?m)^    (\w+),$", body)
    found = re.findall(r"(?m)^    /// `(\S+)`.*\n    \w+,$", body)
    check(len(found) == len(names) > 0, f"verse_lex/src/tokens.rt: not each {enumeration} has its spelling in a comment above it")
    return found


def first_match(patterns, text, at=0):
    """As an editor does: of the patterns that match at a place, the first."""
    for pattern in patterns:
        match = re.compile(pattern["match"]).match(text, at)
        if match:
            return match[0], pattern["name"]
    return None


def flat(patterns, grammar):
    for pattern in patterns:
        named = grammar[pattern["include"][1:]] if "include" in pattern else pattern
        if "begin" in named or "match" in named:
            yield named
        else:
            yield from flat(named["patterns"], grammar)


def scopes_of(text, patterns, grammar):
    """As an editor does with one line without texts: each part with its scope."""
    found, at = [], 0
    patterns = [it for it in flat(patterns, grammar) if "match" in it]
    while at < len(text):
        match = pattern = None
        for pattern in patterns:
            match = re.compile(pattern["match"]).match(text, at)
            if match and match.end() > at:
                break
            match = None
        if not match:
            at += 1
            continue
        if "name" in pattern:
            found.append((match[0], pattern["name"]))
        for number, capture in pattern.get("captures", {}).items():
            part = match[int(number)] or ""
            if "name" in capture:
                found.append((part, capture["name"]))
            if "patterns" in capture:
                found += scopes_of(part, capture["patterns"], grammar)
        at = match.end()
    return found


SCOPES = [
    ("player := class<unique>(actor):", [("player", "entity.name.type.class.verse"), ("class", "storage.type.verse"), ("actor", "entity.other.inherited-class.verse")]),
    ("color<public> := enum{red, green}", [("color", "entity.name.type.enum.verse"), ("<public>", "storage.modifier.specifier.verse")]),
    ("Buy<public>(P:player, Of:[string]?int)<transacts><decides>:void =", [
        ("Buy", "entity.name.function.definition.verse"), ("P", "variable.parameter.verse"), ("player", "entity.name.type.verse"),
        ("Of", "variable.parameter.verse"), ("string", "storage.type.verse"), ("int", "storage.type.verse"),
        ("<decides>", "storage.modifier.specifier.verse"), ("void", "storage.type.verse")]),
    ("Add(A:tuple(int, int), B:int)<computes>:int = A(0) + B", [("Add", "entity.name.function.definition.verse"), ("B", "variable.parameter.verse"), ("A", "entity.name.function.call.verse")]),
    ("    var Gold<public>:int = 5", [("var", "keyword.other.verse"), ("Gold", "variable.other.definition.verse"), ("int", "storage.type.verse")]),
    ("    Hits:event(int) = event(int){}", [("Hits", "variable.other.definition.verse"), ("event", "storage.type.verse")]),
    ("    Seen:[string]player = map{}", [("Seen", "variable.other.definition.verse"), ("player", "entity.name.type.verse")]),
    ("    P := player{Name := N}", [("P", "variable.other.definition.verse"), ("player", "entity.name.type.instance.verse"), ("Name", "variable.other.definition.verse"), ("N", "variable.other.verse")]),
    ("    if (Got := Ann.Buy[S, 5], X > 1):", [("if", "keyword.control.verse"), ("Got", "variable.other.definition.verse"), ("Buy", "entity.name.function.member.verse"), ("S", "variable.other.verse")]),
    ("    set P.Gold -= Price", [("set", "keyword.control.verse"), ("Gold", "variable.other.member.verse"), ("Price", "variable.other.verse")]),
    ("    for (I := 1..N, E : A) { Tell(E) }", [("for", "keyword.control.verse"), ("I", "variable.other.definition.verse"), ("N", "variable.other.verse"), ("E", "variable.other.verse"), ("Tell", "entity.name.function.call.verse")]),
    ("    N := Rung.Await()", [("Await", "support.function.verse")]),
    ("    else:", [("else", "keyword.control.verse")]),
]


def editors():
    grammar = json.loads(text_of("editors/verse.tmLanguage.json"))["repository"]
    words, marks = grammar["words"]["patterns"], grammar["marks"]["patterns"]
    source = text_of("crates/verse_lex/src/words.rt")
    spelled = re.findall(r'b"(\w+)" => Some\(Word::', source)
    left_out = re.findall(r'b"(\w+)" => true', source)
    check(sorted(spelled) == sorted(spellings("Word")), "verse_lex/src: words.rt and tokens.rt spell other words")
    language = text_of("docs/LANGUAGE.md")
    told = {}
    for kind in ("The words are", "The left-out words are", "The marks are"):
        line = re.search(rf"(?m)^{kind} .*$", language)
        told[kind] = re.findall(r"`(\S+)`", line[0]) if line else []
    check(sorted(told["The words are"]) == sorted(spelled), "docs/LANGUAGE.md, Tokens: the words are others")
    check(sorted(told["The left-out words are"]) == sorted(left_out), "docs/LANGUAGE.md, Tokens: the left-out words are others")
    check(sorted(told["The marks are"]) == sorted(spellings("Mark")), "docs/LANGUAGE.md, Tokens: the marks are others")
    for word in spelled + left_out:
        match = first_match(words, word)
        illegal = "invalid.illegal.left-out.verse"
        check(
            match is not None and match[0] == word and (match[1] == illegal) == (word in left_out),
            f"editors/verse.tmLanguage.json: {word} is {match}",
        )
        check(first_match(words, word + "s_") is None, f"editors/verse.tmLanguage.json: {word}s_ is taken for a word")
    for mark in spellings("Mark"):
        match = first_match(marks, mark)
        check(match is not None and match[0] == mark, f"editors/verse.tmLanguage.json: the mark {mark} is read as {match}")
    configuration = json.loads(text_of("editors/language-configuration.json"))
    opens = [it["beforeText"] for it in configuration["onEnterRules"] if it["action"]["indent"] == "indent"]
    for line, is_opener in (("    if (X > 1):", True), ("Main():void =", True), ("    1 =>", True), ("    X := 5", False), ("    # so:", False), ("    if (X >=", False)):
        check(any(re.search(it, line) for it in opens) == is_opener, f"editors/language-configuration.json: a line behind `{line}`")
    check(re.fullmatch(configuration["wordPattern"], "Score_2") is not None, "editors/language-configuration.json: a name is no word")
    json.loads(text_of("editors/package.json"))
    matchers = {it["name"]: it for it in json.loads(text_of("editors/package.json"))["contributes"]["problemMatchers"]}
    for name, refusal, severity in (
        ("verse", "b.verse:1:12 E041 unknown name", "error"), ("verse-one-file", "2:28 E030 unexpected token", "error"),
    ):
        pattern = matchers[name]["pattern"]
        pattern = pattern if isinstance(pattern, dict) else pattern[1]
        well = re.search(pattern["regexp"], refusal) is not None and matchers[name]["severity"] == severity
        check(well, f"editors/package.json: ${name} does not read {refusal}")
    tasks = json.loads(text_of("editors/tasks.json"))["tasks"]
    for task in tasks:
        script = task["command"].replace("${config:verse.home}/", "")
        check(os.access(script, os.X_OK), f"editors/tasks.json: {script} is no script of the repository")
        for name in task["problemMatcher"]:
            check(name[1:] in matchers, f"editors/tasks.json: there is no {name}")
    for line, wanted in SCOPES:
        found = scopes_of(line, [{"include": "#code"}], grammar)
        for text, scope in wanted:
            told = [name for part, name in found if part == text]
            check(scope in told, f"editors/verse.tmLanguage.json: in `{line}` {text} is {told or 'nothing'}, and not {scope}")


parts_of_examples()
links()
times()
pictures()
codes_of_forms()
refusals()
refused_examples()
mended_examples()
short_examples()
editors()
for it in failures:
    print(f"docs check failed: {it}")
print(f"{passed} passed, {len(failures)} failed")
sys.exit(1 if failures else 0)
