"""What the texts of a crate declare: definitions and laws (.antt), contracts, types and constants (.rt). It reads by form, as `rt fmt` leaves it; what it
can't read it puts into `unread`."""
import os, re
from collections import namedtuple

# the calls that a reader must believe, beside those for C: no `requires`, and everything outright
OUTWARD = {("lookup", "lookup"), ("slots", "open"), ("slots", "close"), ("monitor", "edit"), ("apart", "apart")}
# statement and body are compared; told is shown where it moved; uses has the imported names in it, each with where it comes from; outward is how many
# lines an outward contract has, and else 0
Item = namedtuple("Item", "crate file name statement body told uses outward")
unread = []


def code_lines(text, mark):
    """The lines without comments and without blank ones. No string of these files has the mark of a comment in it."""
    bare = (re.sub(rf"(^|\s){mark}.*", "", line).rstrip() for line in text.split("\n"))
    return [line for line in bare if line]


def one_line(lines):
    return " ".join(" ".join(lines).split())


def indent_of(line):
    return len(line) - len(line.lstrip())


def outside(text, marks, at=0):
    """Where the first of the marks stands outside of all brackets; the text's length if none does."""
    depth = 0
    for k in range(at, len(text)):
        if depth == 0 and any(text.startswith(mark, k) for mark in marks):
            return k
        depth += (text[k] in "([{") - (text[k] in ")]}")
    return len(text)


def closed(text, at):
    """One past the bracket that closes the one at `at`."""
    depth = 0
    for k in range(at, len(text)):
        depth += (text[k] in "([{") - (text[k] in ")]}")
        if depth == 0:
            return k + 1
    raise ValueError("a bracket is not closed")


# ---- where names come from

def origins(where, text):
    """By local name, the places that it is imported from."""
    found = {}
    for line in re.findall(r"^\s*(?:pub )?(?:ghost )?use\b(?:[^;{\n]*\{[^{}]*\})?.*", text, re.M):
        match = re.fullmatch(r"(?:pub )?(?:ghost )?use ([^\s{;]+?)(?:(\.|::)\{([^{}]*)\}| as ([^\s;]+))?;?", one_line([line]))
        place, sign, names, alias = match.groups() if match else (line, "", "*", None)
        listed = [name.split() for name in (names or "").split(",") if name.strip()]
        last = re.split(r"::|\.", place)[-1]
        if ["*"] in [[last], *listed]:
            unread.append(f"{where}: {one_line([line])}")
            continue
        pairs = [(alias, place)] if alias else [(last, place) if name == ["self"] else (name[-1], f"{place}{sign}{name[0]}") for name in listed] or [(last, place)]
        for name, origin in pairs:
            found.setdefault(name, set()).add(origin)
    return found


def used(found, text):
    """Of imported names those that stand in a text; of an operator one of its parts does."""
    words = set(re.findall(r"[^\s(){}\[\];,.:⌜⌝λ&|!]+", text)) | set(re.findall(r"\w+", text))
    stands = lambda name: name in words or "◌" in name and any(part in words for part in name.split("◌") if part)
    return {name: sorted(places) for name, places in found.items() if stands(name)}


# ---- definitions and laws

def chunks(where, text):
    """The declarations and equations of a file, each with the headers of the modules around it. A chunk begins at the indent of its module."""
    modules, chunk, header = [], [], []
    for line in code_lines(text, "--"):
        if header:
            header.append(line)
        elif not chunk or indent_of(line) <= indent_of(chunk[0]) and line.lstrip()[0] not in ")]}":
            if chunk:
                yield [head for _, head in modules], chunk
                chunk = []
            modules = [module for module in modules if module[0] < indent_of(line)]
            if re.match(r"\s*(pub )?module\b", line) and outside(line, [" ="]) == len(line):
                header = [line]
            else:
                chunk = [line]
        else:
            chunk.append(line)
        if header and line.endswith(" where"):
            modules.append((indent_of(header[0]), one_line(header)))
            header = []
    if header:
        unread.append(f"{where}: {header[0].strip()}")
    if chunk:
        yield [head for _, head in modules], chunk


def name_of(chunk):
    """What a chunk is, and of which name: declared, and defined by equations; or whole in itself; or an equation."""
    text = one_line(chunk)
    words = [word for word in text.split() if word not in ("pub", "abbrev", "unfoldable")]
    if words[0] in ("use", "mod", "unfolding"):
        return words[0], ""
    if words[0] in ("data", "record", "ruleset"):
        return "whole", words[1]
    if words[0] in ("infix", "infixl", "infixr", "open"):
        return "whole", " ".join(words[:2])
    colon, equals = outside(text, [" :"]), outside(text, [" ="])
    if words[0] in ("axiom", "postulate", "module") or colon == equals:
        return "unread", words[0]
    return ("declared" if colon < equals else "equation"), words[0]


def declarations(crate, path, text, kind):
    where = f"{crate} {path}"
    found, imported = [], origins(where, "\n".join(code_lines(text, "--")))
    for modules, chunk in chunks(where, text):
        sort, name = name_of(chunk)
        # the equations of `if◌then◌else◌` do not begin with its name
        own = next((entry for entry in reversed(found) if entry[1] == modules and (entry[0] == name or "◌" in entry[0] and entry is found[-1])), None)
        if sort in ("declared", "whole"):
            found.append((name, modules, chunk, [], sort))
        elif sort == "unfolding" and found:
            found[-1][3].extend(chunk)
        elif sort == "equation" and own:
            own[3].extend(chunk)
        elif sort not in ("use", "mod"):
            unread.append(f"{where}: {chunk[0].strip()}")
    for name, modules, chunk, body, sort in found:
        if sort == "declared" and not body:
            unread.append(f"{where}: {name} is declared and not defined")
        statement = one_line([*modules, *chunk])
        means = statement if kind == "proofs" else one_line([statement, *body])
        yield Item(crate, path, name, statement, one_line(body), modules + chunk + body, used(imported, means), 0)


# ---- contracts, types, constants

TACTICS = r"#\[tactic\b[^\]]*\]\s*"


def function(text, start, after):
    """A function's signature and clauses, its body with the tactics that are named for its proof, how many lines it has before the body, and where it
    ends."""
    end = outside(text, ["ghost ", "requires ", "ensures ", "decreases ", "{", ";"], after)
    signature = text[start:end]
    parts, tactics = [one_line([re.sub(TACTICS, "", signature)])], re.findall(TACTICS, signature)
    while match := re.compile(r"\s*(ghost|requires|ensures|decreases)\b[^{]*").match(text, end):
        close = closed(text, match.end())
        parts.append(one_line([text[end:close]]))
        end = close
    lines = len(re.sub(TACTICS, "", text[start:end]).strip().split("\n"))
    body = outside(text, ["{", ";"], end)
    close = closed(text, body) if text[body:body + 1] == "{" else body + 1
    return parts, one_line([*tactics, text[body:close]]), lines, close


def contracts(crate, path, text, kind):
    """The functions of a file, and its types and constants; of an impl what it says and its functions."""
    text = "\n".join(code_lines(re.sub(r"/\*.*?\*/", "", text, flags=re.S), "//"))
    # what each crate's root has
    text = re.sub(r"^#!\[tactic\(auto\)\]$", "", text, flags=re.M)
    # a bracket in a string is none
    text = re.sub(r'"(\\.|[^"\\])*"', lambda string: string.group(0).translate(str.maketrans("([{}])", "❨❲❴❵❳❩")), text)
    yield from items(crate, path, text, origins(f"{crate} {path}", text), "")


def items(crate, path, text, imported, within):
    """The items of a text; within names the impl that it is from."""
    module = os.path.splitext(os.path.basename(path))[0]
    begin = re.compile(r"\s*((?:#\[[^\]]*\]\s*)*(?:pub )?(?:(?:ghost )?use|mod|(?:const )?(?:extern \"C\" )?fn|const|static|type|struct|enum|ghost)\b)\s*(\w*)")
    block = re.compile(r"\s*(impl\b[^{;]*)\{")
    at = 0
    while at < len(text.rstrip()):
        match, opens = begin.match(text, at), block.match(text, at)
        try:
            if opens:
                at = closed(text, opens.end() - 1)
                yield from items(crate, path, text[opens.end():at - 1], imported, one_line([opens[1]]))
                continue
            if match[1].endswith("fn"):
                parts, body, lines, at = function(text, match.start(1), closed(text, text.index("(", match.end())))
                outward = lines if "extern" in match[1] or (crate, match[2]) in OUTWARD else 0
                name = f"{within} {match[2]}" if within else match[2] if module in ("lib", "main") else f"{module}::{match[2]}"
                yield Item(crate, path, name, tuple(parts), body, parts, used(imported, " ".join([*parts, body])), outward)
                continue
            end = outside(text, [";", "{"] if match[1].endswith(("struct", "enum")) else [";"], match.end())
            end = closed(text, end) if text[end:end + 1] == "{" else end + 1
        except (TypeError, ValueError):
            unread.append(f"{crate} {path}: {text[at:].strip().splitlines()[0]}")
            return
        told = text[match.start(1):end]
        if not match[1].endswith(("use", "mod")):
            name = f"{within} {match[2]}" if within else match[2]
            yield Item(crate, path, name, one_line([told]), "", [line.strip() for line in told.split("\n")], used(imported, told), 0)
        at = end
