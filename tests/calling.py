"""Writes the part of each crates/NAME/CALLING.md under `## Calls` anew from the sources: the public types and calls, with a
sentence for each and their contracts.

calling.py writes them. calling.py --check changes nothing, and ends with 1 where a page says something else than its sources,
or shows Rust that doesn't stand in crates/example.
"""
import pathlib
import re
import sys

TOP = pathlib.Path(__file__).resolve().parent.parent
HEAD = "## Calls\n"
CLAUSE = re.compile(r"(requires|ensures)\b")


def exported(crate):
    """The names that the crate's root makes public."""
    text = (crate / "src" / "lib.rt").read_text()
    return {name for block in re.findall(r"pub use [a-z_:]+::(\{[^}]*\}|\w+);", text) for name in re.findall(r"\w+", block)}


def sentence(docs):
    """The first sentence of a comment; of a law that which says what holds."""
    text = " ".join(docs[: docs.index("")] if "" in docs else docs)
    text = text.replace(", to call upon; nothing is computed", "")
    sentences = re.split(r"(?<=\.) ", text)
    return " ".join(sentences[:2] if sentences[0].startswith("A law") else sentences[:1])


def head_of(lines, owner):
    """A call's head on one line, and its clauses below."""
    lines = [line.strip() for line in lines]
    first = next((k for k, line in enumerate(lines) if CLAUSE.match(line)), len(lines))
    head = " ".join(lines[:first]).replace("( ", "(").replace(", )", ")")
    head = re.sub(r"^pub ", "", head).rstrip("{; ")
    head = re.sub(r"^(const )?fn ", rf"\1fn {owner}::" if owner else r"\1fn ", head)
    clauses = ["  " + re.sub(r" ?[{;]$", "", line) for line in lines[first:] if line not in ("{", "{}")]
    return [head, *clauses]


def block_of(lines, at):
    """The lines of the block that opens before line `at`, up to its end, and the place behind it."""
    end = next(k for k in range(at, len(lines)) if lines[k] == "}")
    return lines[at:end], end + 1


def shown_type(line, docs, body):
    """A struct or an enum: its sentence, and its public fields or its variants with theirs."""
    shown, notes = [f"// {sentence(docs)}", re.sub(r"^pub ", "", line).rstrip(" {;")], []
    for part in map(str.strip, body):
        if part.startswith("///"):
            notes.append(part[3:].strip())
        elif part.startswith("#["):
            continue
        elif line.startswith("pub enum") or part.startswith("pub "):
            shown.append(f"  {part.rstrip(',').removeprefix('pub ')}" + (f"  // {sentence(notes)}" if notes else ""))
            notes = []
    return shown


def shown_impl(line, body):
    """An impl of a trait: what it says to contracts, and its types and constants."""
    kept = [part.strip().rstrip(";") for part in body if re.match(r"    (ghost \w+ = |type |const )", part)]
    return [line.rstrip(" {"), *("  " + part for part in kept)]


def shown_calls(owner, body, every):
    """The public calls of an impl or a trait: in a trait, every call is."""
    docs, at = [], 0
    while at < len(body):
        part = body[at]
        at += 1
        if part.strip().startswith("///"):
            docs.append(part.strip()[3:].strip())
        elif every and re.match(r"    (ghost|type|const \w+:) ?", part) and "fn " not in part:
            yield [part.strip().rstrip(";")]
            docs = []
        elif re.match(r"    pub (const )?fn " if not every else r"    fn ", part):
            call = [part]
            while not call[-1].endswith(("{", ";", "{}")) or CLAUSE.match(call[-1].strip()) and not call[-1].endswith(("{", ";")):
                call.append(body[at])
                at += 1
            yield [f"// {sentence(docs)}", *head_of(call, owner)]
            docs = []
        elif not part.strip().startswith("#["):
            docs = []


def shown(text, names):
    """What is public of a file."""
    docs, lines, at = [], text.splitlines(), 0
    while at < len(lines):
        line = lines[at]
        at += 1
        if line.startswith("///"):
            docs.append(line[3:].strip())
            continue
        if line.startswith("#["):
            continue
        name = re.search(r"(?:struct|enum|trait|fn|const|for|impl(?:<[^>]*>)?) (\w+)(?=[^a-z]*$|[ <(:{;])", line)
        of_trait = re.match(r"impl(?:<[^>]*>)? (\w+)(?:<\w+>)? for (\w+)", line)
        if re.match(r"pub (struct|enum) ", line) and name[1] in names:
            body, at = block_of(lines, at) if line.endswith("{") else ([], at)
            yield shown_type(line, docs, body)
        elif line.startswith("pub const ") and name[1] in names and " fn " not in line:
            yield [f"// {sentence(docs)}", line.removeprefix("pub ").rstrip(";")]
        elif of_trait and of_trait[2] in names and of_trait[1] not in ("From", "Drop") and line.endswith("{"):
            body, at = block_of(lines, at)
            yield shown_impl(line, body)
        elif re.match(r"(impl|pub trait)\b", line) and not of_trait and line.endswith("{"):
            owner = re.match(r"(?:impl(?:<[^>]*>)?|pub trait) (\w+)", line)[1]
            body, at = block_of(lines, at)
            if owner in names:
                every = line.startswith("pub trait")
                if every:
                    yield [f"// {sentence(docs)}", line.removeprefix("pub ").rstrip(" {")]
                yield from shown_calls(owner, body, every)
        elif re.match(r"pub (const )?fn ", line) and re.search(r"fn (\w+)", line)[1] in names:
            call = [line]
            while not call[-1].endswith(("{", "{}")) or CLAUSE.match(call[-1].strip()) and "}" in call[-1] and not call[-1].endswith(" {"):
                call.append(lines[at])
                at += 1
            yield [f"// {sentence(docs)}", *head_of(call, "")]
        docs = []


def calls(crate):
    names = exported(crate)
    parts = ["\n".join(part) for file in sorted((crate / "src").glob("*.rt")) for part in shown(file.read_text(), names)]
    return "```text\n" + "\n\n".join(parts) + "\n```\n"


def unproved(text, proved):
    """The items of a page's Rust that stand nowhere in what is proved."""
    blocks = re.findall(r"```rust\n(.*?)```", text, re.DOTALL)
    return [item for block in blocks for item in block.split("\n\n") if item.strip() not in proved]


def main():
    check, status = "--check" in sys.argv, 0
    proved = "".join(file.read_text() for file in (TOP / "crates" / "example" / "src").glob("*.rt"))
    for page in sorted(TOP.glob("crates/*/CALLING.md")):
        text = page.read_text()
        front = text[: text.index(HEAD) + len(HEAD)]
        fresh = front + "\n" + calls(page.parent)
        if check and fresh != text:
            print(f"{page.relative_to(TOP)} isn't what the sources say: run tests/calling.py", file=sys.stderr)
            status = 1
        elif not check:
            page.write_text(fresh)
    for page in [TOP / "README.md", *TOP.glob("crates/*/CALLING.md")]:
        for item in unproved(page.read_text(), proved):
            print(f"{page.relative_to(TOP)} shows Rust that isn't proved:\n{item}", file=sys.stderr)
            status = 1
    return status


sys.exit(main())
