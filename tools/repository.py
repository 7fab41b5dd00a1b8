"""What the tools know of the repository: its crates, what each stands on, and the digests of their files."""
import collections
import hashlib
import itertools
import os
import pathlib
import re
from collections.abc import Iterable, Mapping, Set
from typing import Any

TOP = pathlib.Path(__file__).resolve().parent.parent
# The folders of a crate that a proof reads.
PARTS = ("src", "specs", "proofs")


def crates(top: pathlib.Path = TOP) -> dict[str, str]:
    """The lines of crates.txt by the names of their crates, in the order of the file."""
    lines = {}
    for line in (top / "crates.txt").read_text(encoding="utf-8").splitlines():
        words = line.partition("#")[0].split()
        if words:
            lines[words[0].rstrip(":")] = " ".join(words)
    return lines


def below(lines: Mapping[str, str], name: str) -> list[str]:
    """The crates of the repository that a crate stands on, each after those that it stands on itself."""
    found = []
    for library in lines[name].partition(":")[2].replace(",", " ").split():
        if library in lines:
            found += [it for it in [*below(lines, library), library] if it not in found]
    return found


def files(folder: pathlib.Path) -> list[pathlib.Path]:
    """The files at or below a folder, in the order of their paths; none where there is no such folder."""
    found = [pathlib.Path(at) / name for at, _, names in os.walk(folder) for name in names]
    return sorted(found, key=lambda it: it.relative_to(folder).parts)


# What a source is made of, as far as its braces go: comments, strings, characters (not lifetimes), words, and single marks.
PIECE = re.compile(r"""//[^\n]*|"(?:\\.|[^"\\])*"|'(?:\\.[^']*|[^\\'\n])'|\w+|\s+|.""", re.S)
CLAUSES = {"requires", "ensures", "ghost"}
WORD = re.compile(r"[\w']+")


def without_comments(source: str) -> str:
    return "".join(it for it in PIECE.findall(source) if not it.startswith("//"))


def has_macros(source: str) -> bool:
    return "macro_rules!" in source


def without_bodies(source: str) -> str:
    """A source without comments, without functions that no other crate can name, and without the bodies of the others, but those of
    constant functions, which types may name. What is left are types, constants, imports, and signatures with their clauses."""
    pieces = [it for it in PIECE.findall(source) if not it.startswith("//")]
    words = [at for at, it in enumerate(pieces) if not it.isspace()]
    before = {at: pieces[words[place - 1]] if place else "" for place, at in enumerate(words)}
    # What is kept, where in it the item begins that is read, and whether each block that is open is that of a trait or its impl.
    kept, start, blocks, at = [], 0, [], 0

    def behind(opening: int) -> int:
        """The place behind the brace that closes the one at this place."""
        depth = 0
        for place in range(opening, len(pieces)):
            depth += (pieces[place] == "{") - (pieces[place] == "}")
            if depth == 0:
                return place + 1
        raise ValueError("a brace is not closed")

    while at < len(pieces):
        piece = pieces[at]
        kept.append(piece)
        at += 1
        if piece == "{":
            header = "".join(kept[start:])
            blocks.append(bool(re.search(r"\btrait\b|\bimpl\b.*\bfor\b", header, re.S)))
        elif piece == "}" and blocks:
            blocks.pop()
        if piece in ("{", "}", ";"):
            start = len(kept)
        if piece != "fn" or before[at - 1] == "const":
            continue
        is_visible = bool(blocks and blocks[-1]) or re.search(r"\bpub\s+(?!\()", "".join(kept[start:]))
        # The signature and the clauses, up to the body or to the end of a function that has none. (A `;` in the type of
        # an array is no end.)
        in_clause, depth = False, 0
        while at < len(pieces) and (in_clause or depth or pieces[at] not in ("{", ";", "}")):
            depth += (pieces[at] in "([") - (pieces[at] in ")]")
            if pieces[at] == "{":
                end = behind(at)
                kept += pieces[at:end]
                at, in_clause = end, False
            else:
                in_clause = in_clause or pieces[at] in CLAUSES
                kept.append(pieces[at])
                at += 1
        if at < len(pieces) and pieces[at] == "{":
            kept.append("{}")
            at = behind(at)
        if not is_visible:
            del kept[start:]
        start = len(kept)
    return " ".join("".join(kept).split())


IMPORT = re.compile(r"(?:(pub)(?:\([^)]*\))? )?(ghost )?\buse ([^;{}]*?)(?:\{([^{}]*)\}|(\w+))(?: as (\w+))?;")


def known_as(path: str, item: str) -> str:
    """The name by which a file knows what it imports from behind this path."""
    name = item.split(" as ")[-1].split("::")[-1].replace("◌", "").strip()
    return WORD.findall(path)[-1] if name == "self" else name


def without_spare_names(source: str) -> str:
    """What `without_bodies` left, without the imports that nothing in it names, and without the names of private modules."""
    source = re.sub(r"(?<!pub )\bmod \w+;", "", source)
    rest = IMPORT.sub("", source)

    def is_named(name: str) -> bool:
        if not re.fullmatch(r"[\w']+", name):
            return name in rest
        return re.search(rf"(?<![\w']){name}(?![\w'])", rest) is not None

    def kept(found: re.Match[str]) -> str:
        public, ghost, path, several, one, other = found.groups()
        items = [it.strip() for it in several.split(",")] if several is not None else [f"{one} as {other}" if other else one]
        items = [it for it in items if it and (public or is_named(known_as(path, it)))]
        return f"{public or ''} {ghost or ''}use {path}{{{', '.join(items)}}};" if items else ""

    return " ".join(IMPORT.sub(kept, source).split())


def interface(folder: pathlib.Path) -> dict[pathlib.Path, str]:
    """What a proof of a crate above may read of the crate in this folder: its definitions, and of its sources the types, the constants and
    the signatures and clauses of the functions that other crates can name. A call is known by its contract alone. A source
    with a macro is read whole, since what a macro says becomes a body above."""
    texts = {it.relative_to(folder): it.read_text(encoding="utf-8") for it in files(folder / "src")}
    sources = {it: without_comments(text) if has_macros(text) else without_bodies(text) for it, text in texts.items()}
    specs = {it.relative_to(folder): it.read_text(encoding="utf-8") for it in files(folder / "specs")}
    private = re.compile(r"\bconst (\w+): [^;{}]*;")
    text = "\n".join([*sources.values(), *specs.values()])

    def kept(found: re.Match[str]) -> str:
        is_public = re.search(r"\bpub(\(\w+\))? $", found.string[: found.start()])
        is_named = len(re.findall(rf"\b{found[1]}\b", text)) > 1
        return found[0] if is_public or is_named else ""

    sources = {it: without_spare_names(private.sub(kept, source)) for it, source in sources.items()}
    return {it: text for it, text in {**sources, **specs}.items() if text}


def imports_for(imports: Iterable[tuple[str, ...]], text: str) -> str:
    """Of these imports those that a text names, in one order. The rest of a text means the same without the others, and so
    do the operators of the kit."""
    found = set()
    for public, ghost, path, several, one, other in imports:
        items = [it.strip() for it in several.split(",")] if several is not None else [f"{one} as {other}" if other else one]
        for it in filter(None, items):
            name = known_as(path, it)
            is_word = re.fullmatch(r"[\w']+", name)
            if public or (re.search(rf"(?<![\w']){name}(?![\w'])", text) if is_word else name in text and not path.startswith("Rattle.std.")):
                found.add(f"{public or ''} {ghost or ''}use {path}{{{it}}};".strip())
    return " ".join(sorted(found))


# The head of an impl that is of no trait and of which nothing is left.
BARE_IMPL = re.compile(r"\bimpl\b(?:(?!\bfor\b)[^{};])*\{\s*\}")


def functions_apart(source: str) -> tuple[str, list[tuple[str, str, str | None]]]:
    """A source of an interface without its functions, and these as names, texts, and the head of the impl in which each
    stands, or None. Each text has the imports that it names. Methods of traits and of their impls stay, and so do constant
    functions."""
    imports = IMPORT.findall(source)
    pieces, at = PIECE.findall(IMPORT.sub("", source)), 0
    rest: list[str] = []
    found: list[tuple[str, str, str | None]] = []
    header: list[str] = []
    blocks: list[bool] = []
    heads: list[str] = []
    while at < len(pieces):
        piece = pieces[at]
        if piece == "fn" and "const" not in header and not (blocks and blocks[-1]):
            end = next(it for it in range(at, len(pieces)) if pieces[it : it + 2] == ["{", "}"]) + 2
            name, text = next(it for it in pieces[at + 1 :] if not it.isspace()), "".join(header + pieces[at:end]).strip()
            found.append((name, f"{imports_for(imports, text)} {text}", heads[-1] if heads else None))
            header, at = [], end
            continue
        header.append(piece)
        at += 1
        if piece in ("{", "}", ";"):
            text = "".join(header)
            if piece == "{":
                blocks.append(bool(re.search(r"\btrait\b|\bimpl\b.*\bfor\b", text, re.S)))
                heads.append(text.strip())
            elif piece == "}" and blocks:
                blocks.pop()
                heads.pop()
            rest.append(text)
            header = []
    text = "".join([*rest, *header])
    heads = sorted({" ".join(it.split()) for it in BARE_IMPL.findall(text)})
    text = " ".join([BARE_IMPL.sub(" ", text), *heads])
    return " ".join(f"{imports_for(imports, text)} {text}".split()), found


ANTT_USE = re.compile(r"^use ([^{}\n]*?)(?:\{([^{}]*)\}|([\w']+)(?: as ([\w']+))?)\n", re.M)
# What stands at the head of a line of a definition before the name that it declares or defines.
ANTT_NAME = re.compile(r"^\s*(?:(?:pub|abbrev|record|data|mutual|unfoldable|opaque|given|let|where) )*([^\s:({=]+)", re.M)


def definitions_apart(text: str) -> list[tuple[str, frozenset[str]]]:
    """The blocks of a file of definitions, one for each definition or for several that stand together, each with the
    imports that it names; and the names that it declares: of its types, their fields and constructors, and its functions."""
    imports = [("", "", *it) for it in ANTT_USE.findall(text)]
    blocks: list[str] = []
    for block in re.split(r"\n\s*\n", ANTT_USE.sub("", text)):
        if block.strip():
            # What is indented from its first line on belongs to what stands before it.
            if blocks and block.lstrip("\n")[:1].isspace():
                blocks[-1] += "\n" + block
            else:
                blocks.append(block.strip("\n"))
    return [(f"{imports_for(imports, it)}\n{it}", frozenset(ANTT_NAME.findall(it))) for it in blocks]


# Words that are joined to a path, with those in the braces at its end, or a star.
PATH = re.compile(r"[\w']+(?:\s*(?:::|\.)\s*[\w']+)*(?:\s*(?:::|\.)\s*(?:\{[^{}]*\}|\*))?")
DECLARED = re.compile(r"\b(?:struct|enum|trait|type|union) (\w+)")
# What has values, or methods that others give.
HAS_IMPLS = re.compile(r"\b(?:struct|enum|trait|union) (\w+)")
# The head of an impl: what stands before the type for which it is (a trait, if any), and this type.
IMPL_HEAD = re.compile(r"\bimpl\b([^{};]*\bfor\b)?([^{]*)\{")
# A part of what a crate above may read: of a source a function, or the rest of it, whose `function` is empty; of a file
# of definitions a block, whose `function` are the names that it declares. Beside its text all its words, those of its
# paths (each alone, and each with each before it in its path; a word outside of paths as a tuple of one), the types and
# traits that it declares, of each of its impls the words of the head before the type and from there on, and the head of
# the impl of a method.
Part = collections.namedtuple("Part", "crate path function text words named types heads impl")


def meant(path: pathlib.Path, text: str) -> str:
    """A text without what means nothing: the list of modules, and the lines of a file of antt that are comments."""
    if path.suffix == ".rt":
        return re.sub(r"\b(?:pub(?:\(\w+\))? )?mod \w+;", "", text)
    rows = (it for it in text.split("\n") if not re.match(r"\s*--( |$)", it))
    return "\n".join(it for it in rows if path.name != "Lib.antt" or not re.fullmatch(r"\s*(pub )?mod \w+\s*", it))


def part_of(crate: str, path: pathlib.Path, function: str | frozenset[str], text: str, impl: str | None = None) -> Part:
    named: set[tuple[str, ...]] = set()
    for at in PATH.findall(text):
        words = WORD.findall(at)
        named.update(words if len(words) > 1 or at.endswith("*") else [(words[0],)], itertools.combinations(words, 2))
    is_source = path.suffix == ".rt"
    types = frozenset(DECLARED.findall(text) if is_source else ())
    heads = frozenset(tuple(frozenset(WORD.findall(it)) for it in head) for head in IMPL_HEAD.findall(text) if is_source)
    return Part(crate, path, function, text, frozenset(WORD.findall(text)), frozenset(named), types, heads, impl)


# The head of an item: what may be seen outside of its crate, what it is, and its name.
ITEM = re.compile(r"(?:#\[[^]]*\] )*(pub )?(?!\()(?:\w+\([^)]*\) )?(struct|enum|union|trait|type|impl)\b ?(\w+)?")
# What a struct, an enum or a variant holds, and a field of a struct that may be seen outside of its crate.
BODY = re.compile(r"(?:\{|\((?!.*\{))(.*)", re.S)
SHOWN_FIELD = re.compile(r"\bpub (?!\()(.*)", re.S)


def public_modules(folder: pathlib.Path) -> set[pathlib.Path]:
    """The paths of the sources of a crate to which a path of public modules leads from its root."""
    waiting, found = [(pathlib.Path("src/lib.rt"), pathlib.Path("src"))], set()
    while waiting:
        path, inside = waiting.pop()
        if path in found or not (folder / path).is_file():
            continue
        found.add(path)
        for name in re.findall(r"^\s*pub mod (\w+);", (folder / path).read_text(encoding="utf-8"), re.M):
            waiting += [(inside / f"{name}.rt", inside / name), (inside / name / "mod.rt", inside / name)]
    return found


def apart(text: str, marks: str) -> list[str]:
    """The parts of a text between those of these marks that stand outside of all brackets; a `}` stays with what it ends."""
    found, depth = [""], 0
    for it in PIECE.findall(text):
        depth += (it in "([{") - (it in ")]}")
        if depth == 0 and it in marks:
            found[-1] += it if it == "}" else ""
            found.append("")
        else:
            found[-1] += it
    return [it.strip() for it in found if it.strip()]


def types_of_impl(text: str) -> set[str]:
    """The words of the type for which the impl is that this text begins, or ends with the head of."""
    head = IMPL_HEAD.search(text)
    assert head, text
    return set(WORD.findall(head[2]))


def shown_of(rest: str, functions: Iterable[tuple[str, str, str | None]], is_public: bool, types: Set[str]) -> list[tuple[bool, set[str], set[str]]]:
    """Of the rest of a source and its functions, as triples: whether it is seen outside of its crate by itself, the names by
    which it is else reached, and the words that are reached with it: of a struct its head and its public fields, of an enum
    what its variants hold. An impl is reached by these types of its crate alone."""
    found = []
    for public, _, path, several, one, other in IMPORT.findall(rest):
        if public:
            items = several.split(",") if several is not None else [f"{one} as {other}" if other else one]
            found.append((is_public, {known_as(path, it) for it in items}, {*WORD.findall(path), *WORD.findall(" ".join(items))}))
    for item in apart(IMPORT.sub("", rest), "};"):
        head = ITEM.match(item)
        if not head:
            found.append((True, set(), set(WORD.findall(item))))
        elif head[2] == "impl":
            names = types_of_impl(item[head.start(2) :] + "{") & types
            found.append((not names, names, set(WORD.findall(item))))
        else:
            shown = [item]
            if head[2] in ("struct", "enum") and (body := BODY.search(item, head.end())):
                held = map((SHOWN_FIELD if head[2] == "struct" else BODY).search, apart(body[1][:-1], ","))
                shown = [item[head.start(3) : body.start()], *(it[1] for it in held if it)]
            found.append((is_public and bool(head[1]), {head[3]}, set(WORD.findall(" ".join(shown)))))
    for name, text, impl in functions:
        names = {name} if impl is None else types_of_impl(impl) & types
        found.append((is_public and impl is None, names, set(WORD.findall(text))))
    return found


# What was read of each folder of a crate. No file may change, or what was read of its folder has to be taken out.
READ: dict[pathlib.Path, list[Part]] = {}


def parts_above(folder: pathlib.Path) -> list[Part]:
    """The parts of the interface of the crate in this folder."""
    if folder not in READ:
        READ[folder] = read_parts(folder)
    return READ[folder]


def read_parts(folder: pathlib.Path) -> list[Part]:
    """The parts of the interface of the crate in this folder, as it is now. Of a type that no other crate can come by
    no method can be called there, so what it has in private modules is left out."""
    public = public_modules(folder)
    sources: dict[pathlib.Path, tuple[str, list[tuple[str, str, str | None]]]] = {}
    found: list[Part] = []
    for path, text in sorted(interface(folder).items()):
        if path.suffix == ".rt":
            text = meant(path, text)
            sources[path] = (text, []) if has_macros(text) else functions_apart(text)
            found.append(part_of(folder.name, path, "", sources[path][0]))
            found += [part_of(folder.name, path, *it) for it in sources[path][1]]
        else:
            found += [part_of(folder.name, path, names, it) for it, names in definitions_apart(meant(path, text))]
    types = {it for rest, _ in sources.values() for it in DECLARED.findall(rest)}
    there = [it for path, (rest, functions) in sources.items() for it in shown_of(rest, functions, path in public, types)]
    shown: set[str] = set()
    more = [it for it in there if it[0]]
    while more:
        shown.update(word for it in more for word in it[2])
        there = [it for it in there if it not in more]
        more = [it for it in there if not it[1].isdisjoint(shown)]
    return [it for it in found if not it.impl or it.path in public or not (types_of_impl(it.impl) & types).isdisjoint(shown)]


def calls_in(source: str) -> set[tuple[str, bool]]:
    """The names that stand behind a point or two colons in a source, each with whether arguments follow: both where that
    is not seen."""
    found = set()
    for sign, name, behind in re.findall(r"(\.|::)\s*(\w+)\s*(\(\s*\)?)?", source):
        is_seen = sign == "." and behind
        found |= {(name, not behind.endswith(")"))} if is_seen else {(name, True), (name, False)}
    return found


def calls_of(method: Part) -> set[tuple[str, bool]]:
    """How a method is called."""
    takes = re.search(rf"\bfn {method.function}\b[^(]*\(\s*(?:&\s*)?(?:'\w+ )?(?:mut )?self\s*(,(?!\s*\))|,?\s*\))", method.text)
    return {(method.function, takes[1] == ",")} if takes else {(method.function, True), (method.function, False)}


def parts_named(top: pathlib.Path, lines: Mapping[str, str], name: str, folders: Iterable[str]) -> tuple[list[Part], frozenset[str]]:
    """The parts of the crates below that a crate's files name, and that these name again, in order, and all words of its own files."""
    texts, all_files = [], [it for folder in folders for it in files(top / "crates" / name / folder)]
    for file in all_files:
        text = file.read_text(encoding="utf-8")
        source = without_comments(text) if file.suffix == ".rt" else text
        texts.append(source if file.suffix == ".edit" else meant(file, source))
    own = part_of(name, pathlib.Path("src/lib.rt"), "", "\n".join(texts))
    calls = calls_in("\n".join(it for file, it in zip(all_files, texts) if file.suffix != ".antt"))
    there = [it for crate in below(lines, name) for it in parts_above(top / "crates" / crate)]
    # What the crate's bodies may name, and the names that were given to others on the way to it.
    named, renamed = set(own.words), set()
    has_impls = {it for part in there if part.path.suffix == ".rt" for it in HAS_IMPLS.findall(part.text)}
    waiting = collections.defaultdict(list)
    for it in there:
        waiting[it.crate, it.path].append(it)
    unreached = {crate: {it for it in waiting if it[0] == crate} for crate in {it.crate for it in there}}
    # A macro is named at the root of its crate, wherever it stands.
    roots = {it for it, parts in waiting.items() if it[1].name in ("Lib.antt", "lib.rt", "main.rt") or any(has_macros(part.text) for part in parts)}
    found: set[Part] = set()
    reached: set[tuple[str, pathlib.Path]] = set()
    types: set[tuple[str, str]] = set()
    words, fresh = set(own.words), [own]

    def is_named(place: tuple[str, pathlib.Path], by: Part) -> bool:
        crate, path = place
        module = path.parent.name if path.stem == "mod" else path.stem
        if place in roots or module in by.named and crate == by.crate:
            return True
        from_root = (crate, module) in by.named or (crate,) in by.named and module in by.named
        return crate != by.crate and (from_root or module in by.named and any((crate, it) in by.named for it in path.parts[1:-1]))

    def is_of_types(part: Part) -> bool:
        # An impl for a type of no crate below, as one of the kit or a parameter, is found by its trait.
        heads = {it for head, behind in part.heads for it in (behind if not behind.isdisjoint(has_impls) else head | behind)}
        return any(name in heads and (crate == part.crate or crate in part.words) for crate, name in types)

    def counts(it: Part) -> bool:
        if it.path.suffix != ".rt":
            # A name that is no word (an operator) counts where its file does.
            return not it.function or any(name in words or not WORD.fullmatch(name) for name in it.function)
        return not it.function or (it.function in named if not it.impl else not calls.isdisjoint(calls_of(it)))

    while fresh:
        for by in fresh:
            for crate, places in unreached.items():
                if crate == by.crate or crate in by.words:
                    more = {it for it in places if is_named(it, by)}
                    places -= more
                    reached |= more
        for places in unreached.values():
            more = {it for it in places if any(is_of_types(part) for part in waiting[it])}
            places -= more
            reached |= more
        fresh = [it for place in reached for it in waiting[place] if counts(it)]
        for it in fresh:
            types |= {(it.crate, name) for name in it.types}
            words |= it.words
            renamed.update(re.findall(r"\b([\w']+) as ([\w']+)", it.text))
            if has_macros(it.text):
                named |= it.words
                calls |= calls_in(it.text)
        while more := {name for name, other in renamed if other in named} - named:
            named |= more
        found.update(fresh)
        for place in reached:
            waiting[place] = [it for it in waiting[place] if it not in found]
    return [it for it in there if it in found], own.words


def digest(top: pathlib.Path, lines: Mapping[str, str], name: str, kit: str, *more: str) -> str:
    """The sha256 of all on which it hangs whether a body of this crate is refused: the kit's logic, the crate's files,
    those of its folders `more` too, and of the crates below it what these files name, and what that names, and so on; of
    their lines in crates.txt the names of the crates with what stands beside these, and what the crate's own files name
    of its own line.

    A wrong body is refused since it breaks a clause. Whether it does hangs on what the clause means, and on what is known
    of each call: on the words of the crate's own files, and what these are declared to be. (Which lemmas there are does
    not count: no lemma proves what is false.) No file can use a thing of another one without a path with the name of its
    crate and of its module or of one that this is in, or from where another file with both hands it on. So a file below is
    reached where a text that counts has such a path (or the crate's name outside of paths, as for a name that is made of
    it, and the module's in some path); the root of a crate, and a file with a macro, where it has the crate's name; and
    where a file that counts declares a type, each file in which an impl is for that name, and which is of its crate or
    names that, since methods are found by their types alone. An impl for no type of a crate here is found by its trait.
    Of a file of definitions that is reached a block counts where a text that counts has a name that it declares. Of a
    source the rest counts, and a function where its name stands in the crate's own files, or in a macro that counts, or is
    what a name there was given to: a method where it stands behind a point or two colons, with arguments or without as it
    takes them. An import counts where its name stands. Names are compared as words, wherever they come from, so too much
    counts rather than too little. gate/try_asked looks whether it does."""
    summed = hashlib.sha256()

    def add(part: bytes) -> None:
        summed.update(b"%d:" % len(part) + part)

    found, words = parts_named(top, lines, name, (*PARTS, *more))
    add(kit.encode())
    for file in (it for part in (*PARTS, *more) for it in files(top / "crates" / name / part)):
        add(os.fsencode(file.relative_to(top)))
        add(file.read_bytes())
    for crate in sorted({it.crate for it in found} | {name}):
        head, _, rest = lines[crate].partition(":")
        add(" ".join([head, *(sorted({*WORD.findall(rest)} & words) if crate == name else ())]).encode())
    for it in found:
        add(f"{it.crate} {it.path} {it.function if it.path.suffix == '.rt' else ''}".encode())
        add(it.text.encode())
    return summed.hexdigest()


def remember_stamps(rt: Any) -> None:
    """Has the kit's command make each stamp of a crate once: one hangs on those of all crates below it, which it makes
    again for each. From the next call on they are made anew. No file may change in between."""
    make, made = getattr(rt, "make_stamp", rt.rtlib.Crate.stamp), {}

    def stamp(crate: Any) -> Any:
        if crate.folder not in made:
            made[crate.folder] = make(crate)
        return made[crate.folder]

    rt.make_stamp, rt.rtlib.Crate.stamp, rt.Crate.stamp = make, stamp, stamp
