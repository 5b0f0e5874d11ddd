"""Where functions stand in a source file that `rt fmt` laid out, and how a check names them."""
import re
from dataclasses import dataclass
from functools import lru_cache

SEEN = r"( *)(?:pub(?:\([^)]*\))? )?"
FUNCTION = re.compile(SEEN + r"(?:final )?(?:const )?(?:unsafe )?fn (\w+)")
LAST_CLAUSE = re.compile(r" *(?:ensures|requires)\b.*\};$")
OWNER = re.compile(SEEN + r"(?:unsafe )?(impl|trait)\b(.*)\{$")


@dataclass(frozen=True)
class Function:
    """A function: the name that a check gives it, its first row, and the rows that open and close its body."""

    name: str
    row: int
    opens: int
    closes: int


def indent_of(line):
    return len(line) - len(line.lstrip())


def body_at(lines, row):
    """The rows that open and close the body of the item that begins in this row."""
    indent = indent_of(lines[row])
    level = [at for at in range(row, len(lines)) if lines[at].strip() and indent_of(lines[at]) == indent]
    opens = next((at for at in level if lines[at].endswith(("{", "}", ";"))), row)
    # A method without a body may end with its last clause, which stands in one line then.
    opens = next((at for at in range(row, opens) if LAST_CLAUSE.match(lines[at])), opens)
    if not lines[opens].endswith("{"):
        return opens, opens
    return opens, next((at for at in level if at > opens and lines[at].lstrip().startswith("}")), opens)


def after_parameters(text):
    """What follows the parameters in angle brackets with which a text begins, if it begins with any."""
    depth = 0
    for at, sign in enumerate(text):
        depth += (sign == "<") - (sign == ">" and text[at - 1] != "-")
        if depth == 0:
            return text[at + 1 :] if at else text
    return text


def last_word(text):
    return re.match(r"&?([\w:]*)", text.strip())[1].rstrip(":").rpartition("::")[2]


def owner_of(line):
    """The name that a check gives to what an `impl` or a `trait` opens (`Type`, `TypeTrait`, `TypeTraitArgument`; `VecU8Trait`
    for a type of numbers), and whether it is a type alone."""
    kind, rest = OWNER.match(line).group(2, 3)
    bare = after_parameters(rest).partition(" where ")[0]
    trait, _, of = bare.rpartition(" for ")
    arguments = re.findall(r"(?<!')\b[A-Za-z_]\w*", trait.partition("<")[2])
    numbers = re.findall(r"\b[ui](?:8|16|32|64|128|size)\b", of.partition("<")[2])
    return last_word(of) + "".join(numbers).upper() + last_word(trait) + "".join(arguments), kind == "impl" and not trait


def module_of(folder, path):
    """The steps to the module of a source file."""
    steps = path.removeprefix("src/").removesuffix(".rt").split("/")
    return steps[:-1] if steps[-1] in ("lib", "main", "mod") else steps


def module_of_type(folder, path, name):
    """The steps to the module that declares a type: that of this file, or else the first other."""
    declares = re.compile(rf"^(?:pub(?:\([^)]*\))? )?(?:struct|enum) {name}\b", re.M)
    files = [folder / path, *sorted((folder / "src").rglob("*.rt"))]
    found = next((it for it in files if declares.search(it.read_text())), folder / path)
    return module_of(folder, str(found.relative_to(folder)))


@lru_cache(maxsize=None)
def functions_of(folder, path):
    """All functions of a source file."""
    lines, owners, found = (folder / path).read_text().split("\n"), [], []
    for row, line in enumerate(lines):
        owners = [it for it in owners if it[1] >= row]
        around = owners[-1][0] if owners else module_of(folder, path)
        if function := FUNCTION.match(line):
            found.append(Function("::".join([*around, function[2]]), row, *body_at(lines, row)))
        elif OWNER.match(line):
            name, is_type = owner_of(line)
            around = module_of_type(folder, path, name) if is_type else around
            owners.append(([*around, name], body_at(lines, row)[1]))
    return found


def function_at(folder, path, row):
    """The name of the innermost function whose body holds this row, if one does."""
    inside = [it for it in functions_of(folder, path) if it.opens <= row <= it.closes]
    return max(inside, key=lambda it: it.row).name if inside else None


def head_at(folder, path, row):
    """The name of the function whose head or contract holds this row, if one does."""
    return next((it.name for it in functions_of(folder, path) if it.row <= row < it.opens), None)
