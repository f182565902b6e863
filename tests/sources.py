"""Reads Rattle sources, for tests that follow calls: the functions of a source and what each can call."""
import collections
import pathlib
import re

ROOT = pathlib.Path(__file__).resolve().parents[1]
NO_CALLS = {"if", "match", "while", "for", "fn", "return", "loop", "in", "as"}  # words before a bracket that call nothing

Function = collections.namedtuple("Function", "module name body")


# Where the bracket that opens at `at` closes.
def closing(source, at):
    depth = 0
    for i in range(at, len(source)):
        depth += (source[i] == "{") - (source[i] == "}")
        if depth == 0:
            return i
    raise ValueError("a bracket is not closed")


# The source without its comments, its ghost lines, its texts in quotation marks and its contracts, which are in brackets of their own.
def code_of(source):
    source = re.sub(r"//[^\n]*", "", source)
    source = re.sub(r'b?"(?:\\.|[^"\\])*"|b?\'(?:\\.|[^\'\\])\'', "0", source)
    source = re.sub(r"^\s*ghost use [^;]*;", "", source, flags=re.M)
    while found := re.search(r"\b(?:requires|ensures)\s*\*?(?:\s*\w+)?\s*(\{)", source):
        source = source[:found.start()] + source[closing(source, found.start(1)) + 1:]
    return source


# The functions of a source, each with its body.
def functions(module, source):
    source = code_of(source)
    for found in re.finditer(r"\bfn\s+(\w+)", source):
        at = source.index("{", found.end())
        yield Function(module, found[1], source[at:closing(source, at) + 1])


# The paths that `use` lines of a source bring in, alone or some in brackets, by their last name.
def imported(source):
    paths = []
    for path, several in re.findall(r"^\s*(?:pub\s+)?use\s+([\w:]+)(?:\{([\w\s,]*)\})?;", code_of(source), re.M):
        paths += [path + name for name in re.findall(r"\w+", several)] if several else [path]
    return {path.split("::")[-1]: path for path in paths}


# The functions of a name that a call by this path from a module can mean; none if the path names no module of ours.
def callees(path, module, sources, known):
    first, *rest = path.split("::")
    *front, name = "::".join([imported(sources[module]).get(first, first), *rest]).split("::")
    crate = module.split("/")[0]
    if front[:1] == ["crate"]:
        places = ["/".join([crate, *front[1:]]) if front[1:] else f"{crate}/lib"]
    elif front:
        places = ["/".join(front) if front[1:] else f"{front[0]}/lib", f"{crate}/{front[0]}"]
    else:
        places = [module]
    return [function for place in places for function in known.get((place, name), [])]


# The names before a bracket that make a value and call nothing: tuple structs, and the cases of enums.
def constructors(sources):
    code = "\n".join(code_of(source) for source in sources.values())
    cases = "\n".join(re.findall(r"\benum\s+\w+\s*\{([^}]*)\}", code))
    return {*re.findall(r"\bstruct\s+(\w+)\s*\(", code), *re.findall(r"\b(\w+)\s*\(", cases)}


# The functions of all sources, by module and name.
def known_of(sources):
    known = collections.defaultdict(list)
    for place, source in sources.items():
        for function in functions(place, source):
            known[place, function.name].append(function)
    return known


# The paths that a function calls.
def called_by(function, made):
    return [path for path in re.findall(r"((?:\w+::)*\w+)\s*\(", function.body) if path not in NO_CALLS and path not in made]


# All sources of the crates, by crate and module.
def read_all():
    return {"/".join([path.parts[-3], path.stem]): path.read_text() for path in sorted((ROOT / "crates").glob("*/src/**/*.rt"))}
