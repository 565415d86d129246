"""What bin/contracts, bin/laws and bin/tables read of the sources: the public functions of a crate, each with its head and its clauses."""
import pathlib
import re

top = pathlib.Path(__file__).resolve().parent.parent
FUNCTION = re.compile(r"^(?P<depth> *)(?P<public>pub )?(?:const |unsafe |final )*fn (?P<name>\w+)")
OPENS = re.compile(r"^(?P<public>pub )?(?:unsafe )?(?P<kind>impl|trait)\b(?P<rest>[^{]*)")
CLAUSE = re.compile(r"\b(?P<kind>ensures|requires)(?: (?P<name>[\w.]+))? \{")
USED = re.compile(r"^pub use ([\w:]+?)(?:::\{([^}]*)\}|::(\w+))?(?: as (\w+))?;")


class Function:
    """A public function: its name with its type's, its file and line, its head, its clauses, and whether it is a law."""

    def __init__(self, name, file, line, head):
        self.name, self.file, self.line, self.head = name, file, line, head
        self.clauses, self.is_law = [], False


def crates():
    """The names of crates.txt, in its order."""
    lines = (top / "crates.txt").read_text(encoding="utf-8").splitlines()
    return [line.split(":")[0].split()[0] for line in lines if line.strip() and not line.startswith("#")]


def owner_of(found):
    """The type of an impl, or the trait, and whether its functions are public without a word."""
    words = re.sub(r"<[^<>]*(<[^<>]*>[^<>]*)*>", "", found["rest"]).split()
    is_trait = found["kind"] == "trait"
    name = words[0].rstrip(":") if is_trait and words else words[-1] if words else ""
    return name, is_trait and bool(found["public"]), "for" in words and not is_trait


def signature(lines, at):
    """The text of a function up to its body or semicolon, without comments; the body, if it stands on one line; and where it ends."""
    text, depth = [], 0
    for n in range(at, len(lines)):
        line = re.sub(r"(^|\s)//.*$", "", lines[n])
        if n > at and depth == 0 and re.match(r"^ *\{", line):
            return "\n".join(text), line.strip(), n
        text.append(line)
        depth += line.count("{") - line.count("}")
        if depth == 0 and line.rstrip().endswith(";"):
            return "\n".join(text), "", n
        if n == at and line.rstrip().endswith("{"):
            return "\n".join(text), "", n
    return "\n".join(text), "", len(lines) - 1


def functions_of(file):
    """The functions of the file that callers of its crate may see: public ones, and those of public traits."""
    lines = file.read_text(encoding="utf-8").split("\n")
    head, owner, implied, hidden, at = [], "", False, False, 0
    while at < len(lines):
        line = lines[at]
        opened = OPENS.match(line)
        if opened:
            owner, implied, hidden = owner_of(opened)
        elif line == "}":
            owner, implied, hidden = "", False, False
        found = FUNCTION.match(line)
        if line.strip().startswith("///"):
            head.append(line.strip()[3:].strip())
        elif found:
            text, body, end = signature(lines, at)
            if (found["public"] or (implied and len(found["depth"]) == 4)) and not hidden:
                function = Function(f"{owner}::{found['name']}" if owner else found["name"], file, at + 1, head)
                function.clauses = [(it["kind"], it["name"]) for it in CLAUSE.finditer(text)]
                function.is_law = body.replace(" ", "") == "{}" and re.search(r"fn \w+\(\)", text) is not None
                yield function
            head, at = [], end
        elif line.strip() and not line.strip().startswith(("#[", "//")):
            head = []
        at += 1


def modules_of(crate):
    """The files of a crate's src/ that its root makes public, or from which it passes names on, each with these names, or None for all."""
    src = top / "crates" / crate / "src"
    root = src / "lib.rt"
    if not root.exists():
        return {src / "main.rt": None}
    text = root.read_text(encoding="utf-8")
    found = {root: None}
    for public in re.findall(r"^pub mod (\w+);", text, re.M):
        found[src / f"{public}.rt"] = None
    for path, many, one, _ in re.findall(r"^pub use ([\w:]+?)(?:::\{([^}]*)\}|::(\w+))(?: as (\w+))?;", text, re.M):
        parts = [it for it in path.split("::") if it not in ("crate", "self")]
        file = src.joinpath(*parts).with_suffix(".rt") if parts else root
        if file.exists():
            names = {it.strip().split(" as ")[0] for it in (many.split(",") if many else [one]) if it.strip()}
            found[file] = (found.get(file) or set()) | names if found.get(file, set()) is not None else None
    return found


def public_functions(crate):
    """The functions that the crate's root makes public, in the order of files and lines."""
    for file, names in modules_of(crate).items():
        if not file.exists():
            continue
        for function in functions_of(file):
            if names is None or function.name.split("::")[0] in names:
                yield function
