#!/usr/bin/env python3
"""Usage: checks/specs.py [--write] [--ways CRATE]

Reads which definitions of specs/ a clause needs, by names: a clause names definitions that its file
imports, and a definition those that it and its imports name. It ends with 1 where one of these
fails:

- What a user has to believe stands directly under specs/, what only the inside needs under
  specs/Inside/. A file directly under specs/ that no clause of an exported call reaches is named,
  and the line below these counts them.
- For each promise of docs/PROOFS.md it prints how many lines of definitions its clauses and the
  definitions to read need, imports, comments and empty lines apart. The column *lines to read* of
  that page has this number. In `N, M but for `a` and `b``, M is the number where a and b are taken
  as words, and what these need is not read; in `N, M besides `a``, M is the number of those that a
  does not need. The column *edits* has how many must-fail edits stand in the crates whose calls
  carry the promise; where a call is one of a trait, the crates that meet the trait are among them.
  `--write` writes the numbers into the page.
- The headline needs fewer than 1,000 lines besides the words that its row names, and what stops
  leave fewer than 300 besides commands, scripts and the file.
- A definition, a record or a relation of specs/ has at most six arguments by place: what it says
  of more things it says of a record of them. Arguments in braces do not count, those of a module
  around it do; lemmas are no definitions.
- A file of specs/ has definitions and no lemma: each item is an abbrev, an unfoldable, a record, a
  data type, a module or an import.

`--ways CRATE` prints from where each definition of a crate is reached.
"""
import glob
import os
import re
import sys

os.chdir(os.path.dirname(os.path.dirname(os.path.abspath(__file__))))

USE_LIST = re.compile(r"use\s+(Rattle\.[\w.]+)\.\{([^}]*)\}")
USE_MODULE = re.compile(r"use\s+(Rattle\.[\w.]+?)(?:\s+as\s+(\w+))?;?\s*$", re.M)
DEFINITION = re.compile(r"^\s{0,4}(?:(?:abbrev|unfoldable|pub|record|data)\s+)+([^\s:{}()]+)")
FIELD = re.compile(r"^\s+pub \S+ :")
WORD = re.compile(r"[^\s(){}\[\],;:`\"→λ]+")
HEAD = re.compile(r"^(\s*)((?:(?:abbrev|unfoldable|pub|record|data|module) +)*)"
                  r"([^\s:{}()]+)((?:\s|$).*)")
MOST_ARGUMENTS = 6
# by the first cell of a row, and how its second number is counted
MOST_LINES = {("headline", "but for"): 999, ("stops", "besides"): 299}
PROOFS = "docs/PROOFS.md"
CALL = re.compile(r"\[`([\w:]+)`\]\(([^()\s]+\.rt)\)((?:,?(?: and)? `\w+`)*)")
READ = re.compile(r"\[`(\w+)`\]\(([^()\s]+\.antt)\)")
LINES = re.compile(r"([\d,]+\d|\d)(?:, ([\d,]+) (but for|besides) ((?:(?:, | and )?`\w+`)+))?")


def imports(text):
    """For each name that the text brings in, its module and its name there (None: the module)."""
    found = {}
    for module, names in USE_LIST.findall(text):
        for name in filter(None, (part.strip() for part in names.split(","))):
            there, _, here = name.partition(" as ")
            found[here.strip() or there] = (module, there.strip())
    for module, alias in USE_MODULE.findall(text):
        found[alias or module.rsplit(".", 1)[1]] = (module, None)
    return found


def without_comments(text, mark):
    return "\n".join(line.split(mark)[0] for line in text.split("\n"))


class Module:
    """A file of specs/: its definitions by name, each with its text, and what it imports."""

    def __init__(self, path):
        self.path = path
        text = without_comments(open(path, encoding="utf-8").read(), "--")
        self.imports = imports(text)
        self.definitions = {}
        name = None
        for line in USE_LIST.sub("", text).split("\n"):
            start = DEFINITION.match(line)
            if start and not (line.startswith(" ") and FIELD.match(line) and name):
                name = start.group(1)
                self.definitions.setdefault(name, "")
            if name:
                self.definitions[name] += line + "\n"


def modules():
    found = {}
    for path in glob.glob("crates/*/specs/**/*.antt", recursive=True):
        _, crate, inner = path.split("/", 2)
        name = inner[len("specs/"):-len(".antt")].replace("/", ".")
        found[f"Rattle.{crate}.specs.{name}"] = Module(path)
    return found


MODULES = modules()
SOURCES = glob.glob("crates/*/src/**/*.rt", recursive=True)


def defined_at(module, name):
    """The module and name of what a name in this module stands for, if a file of specs/ has it."""
    for _ in range(8):
        if module not in MODULES or name is None:
            return None
        if name in MODULES[module].definitions:
            return module, name
        module, name = MODULES[module].imports.get(name, (None, None))
    return None


class Reached:
    """Definitions that are reached, each by the way to it; none whose name is a word already."""

    def __init__(self, words=()):
        self.ways = {}
        self.words = words

    def by_text(self, text, names, way):
        """Reaches each definition that a word of the text stands for, by these imported names."""
        for word in set(WORD.findall(text)):
            first, _, rest = word.rstrip(".").partition(".")
            if first in names:
                module, there = names[first]
                self.by_name(defined_at(module, there or rest or None), way)

    def by_name(self, definition, way):
        if definition is None or definition in self.ways or definition[1] in self.words:
            return
        self.ways[definition] = way
        module, name = definition
        names = {own: (module, own) for own in MODULES[module].definitions}
        self.by_text(MODULES[module].definitions[name], {**names, **MODULES[module].imports}, name)

    def lines(self, others=()):
        """How many lines the definitions have that are none of the others."""
        ways = (way for way in self.ways if way not in others)
        texts = (MODULES[module].definitions[name] for module, name in ways)
        return sum(bool(line.strip()) for text in texts for line in text.split("\n"))


# FILES THAT NOTHING REACHES

def exported_parts(source):
    """What an exported item of a source file shows its callers: signatures, clauses, members."""
    for item in re.split(r"\n(?=[^\s){}])", source):
        head = item.split("{")[0]
        if re.match(r"pub (struct|enum|trait) ", item):
            yield item
        elif re.match(r"pub (const )?fn ", item):
            yield item.split("\n{")[0]
        elif item.startswith("impl"):
            of_trait = " for " in head
            for member in re.split(r"\n(?=    (?:pub |fn |ghost ))", item):
                member = member.lstrip()
                inner = re.match(r"ghost (use|view|invariant|coded) ", member)
                if member.startswith("pub fn ") or (of_trait and not inner):
                    yield member.split("\n    {")[0]


def read_source(path):
    return without_comments(open(path, encoding="utf-8").read(), "//")


def missed_files():
    """Prints each file directly under specs/ that no exported clause reaches, and counts them."""
    reached = Reached()
    for path in SOURCES:
        source = read_source(path)
        for part in exported_parts(source):
            reached.by_text(part, imports(source), path)
    missed = 0
    for name, module in sorted(MODULES.items()):
        index = re.search(r"/specs/(Lib|Inside|Inside/.*)\.antt$", module.path)
        if index is None and not any((name, own) in reached.ways for own in module.definitions):
            print(f"{module.path}: no clause of an exported call reaches it")
            missed += 1
        if "--ways" in sys.argv and name.split(".")[1] in sys.argv:
            for own in module.definitions:
                way = reached.ways.get((name, own), "not reached")
                print(f"  {name.split('.specs.')[1]}.{own}: {way}")
    print(f"{missed} files of specs/ that no exported clause reaches")
    return missed


# LINES TO READ FOR A PROMISE

def braced(text, start):
    """The text from a place to the end of the braces that open there or after it."""
    depth = 0
    for place in range(text.index("{", start), len(text)):
        depth += {"{": 1, "}": -1}.get(text[place], 0)
        if depth == 0:
            return text[start:place + 1]
    return text[start:]


def clauses(source, call, names):
    """The text of the clauses of a call, of these names, or of all where none is given."""
    name = call.rpartition("::")[2]
    for signature in re.finditer(r"\bfn " + name + r"\b", source):
        # the clauses stand before the body, or before the next member of a trait
        end = re.compile(r"\n *\{\}?(\n|$)|;\n").search(source, signature.end())
        contract = source[signature.end():end.start() if end else len(source)]
        for clause in re.finditer(r"\bensures (\w*)", contract):
            if not names or clause[1] in names:
                yield braced(contract, clause.end())


def module_at(link):
    """The module that a link of the page leads to."""
    path = os.path.normpath(os.path.join("docs", link))
    return next(at for at, module in MODULES.items() if module.path == path)


def needed(row, words=()):
    """The definitions that the promise of a row of the table needs."""
    reached = Reached(words)
    _, _, carried, read = row[:4]
    for call, link, named in CALL.findall(carried):
        source = read_source(os.path.normpath(os.path.join("docs", link)))
        for clause in clauses(source, call, re.findall(r"`(\w+)`", named)):
            reached.by_text(clause, imports(source), call)
    for name, link in READ.findall(read):
        reached.by_name((module_at(link), name), PROOFS)
    return reached


def needed_by(words):
    """The definitions that those need which the page links under these names."""
    reached = Reached()
    for name, link in READ.findall(open(PROOFS, encoding="utf-8").read()):
        if name in words:
            reached.by_name((module_at(link), name), PROOFS)
    return reached


def edits_of(row):
    """How many must-fail edits the crates have whose calls carry the promise of a row."""
    if row[0] == "all":
        return len(glob.glob("crates/*/must-fail/*.*"))
    crates = set()
    for call, link, _ in CALL.findall(row[2]):
        path = os.path.normpath(os.path.join("docs", link))
        crates.add(path.split("/")[1])
        owner = call.rpartition("::")[0]
        if owner and re.search(r"\bpub trait " + owner + r"\b", read_source(path)):
            meets = re.compile(r"^impl\b.*\b" + owner + r" for ", re.M)
            crates.update(other.split("/")[1] for other in SOURCES
                          if meets.search(read_source(other)))
    return sum(len(glob.glob(f"crates/{crate}/must-fail/*.*")) for crate in crates)


def rows_of_promises():
    """The rows of the tables with a column of lines to read, cell by cell."""
    counted = False
    for line in open(PROOFS, encoding="utf-8").read().split("\n"):
        cells = line.strip("| ").split(" | ")
        if not line.startswith("|"):
            counted = False
        elif "lines to read" in cells:
            counted = True
        elif counted and (CALL.search(line) or cells[0] == "all"):
            yield cells


def counts_of(row):
    """What the two counted columns of a row are to have."""
    if row[0] == "all":
        return [row[4], f"{edits_of(row)}"]
    found = LINES.fullmatch(row[4])
    words = re.findall(r"`(\w+)`", found[4] or "") if found else []
    counts = f"{needed(row).lines():,}"
    if words and found[3] == "besides":
        counts += f", {needed(row).lines(needed_by(words).ways):,} besides {found[4]}"
    elif words:
        counts += f", {needed(row, words).lines():,} but for {found[4]}"
    return [counts, f"{edits_of(row)}"]


def too_many(title, counts):
    """Whether the second number of a row is above what it may be, which is printed."""
    found = LINES.fullmatch(counts)
    most = MOST_LINES.get((title, found[3])) if found else None
    if most is None or int(found[2].replace(",", "")) <= most:
        return False
    print(f"{PROOFS}: promise {title} needs more than {most} lines {found[3]} what is known")
    return True


def wrong_counts():
    """Prints the lines of definitions that each promise needs, and its edits, and counts what the
    page has wrong.
    """
    wrong = 0
    for row in rows_of_promises():
        title = re.sub(r"\[(\w+)\]\(.*?\)", r"\1", row[0])
        counts = counts_of(row)
        print(f"promise {title}: {counts[0]} lines of definitions, {counts[1]} edits")
        wrong += too_many(title, counts[0])
        if row[4:6] == counts:
            continue
        if "--write" in sys.argv:
            write_row(row, row[:4] + counts + row[6:])
        else:
            print(f"{PROOFS}: promise {title} has '{row[4]}' and '{row[5]}'")
            wrong += 1
    return wrong


def write_row(old, new):
    """Puts a row of a table in the place of another."""
    page = open(PROOFS, encoding="utf-8").read()
    page = page.replace(f"| {' | '.join(old)} |", f"| {' | '.join(new)} |")
    open(PROOFS, "w", encoding="utf-8").write(page)


# ARGUMENTS BY PLACE

def parts(text, mark):
    """A text cut at each mark that stands in no bracket."""
    found, depth = [""], 0
    for letter in text:
        depth += (letter in "({[") - (letter in ")}]")
        if letter == mark and depth == 0:
            found.append("")
        else:
            found[-1] += letter
    return found


def bound(text):
    """How many names the binders `(a b : T) (c : U)` of a text bind; none of those in braces."""
    groups = [part.strip() for part in text.replace(")", "),").replace("}", "},").split(",")]
    whole, count = "", 0
    for group in groups:
        whole = f"{whole} {group}".strip()
        if whole and whole.count("(") + whole.count("{") == whole.count(")") + whole.count("}"):
            inner = parts(whole[1:-1], ":")
            count += len(inner[0].split()) if whole[0] == "(" and len(inner) > 1 else 0
            whole = ""
    return count


def arguments(head):
    """How many arguments by place a head takes: its name's binders, and what its type takes."""
    binders, *of_type = parts(head, ":")
    taken = parts(":".join(of_type), "→")[:-1]
    named = [bound(part) for part in taken]
    return bound(binders) + sum(
        count or not part.strip().startswith("{") for count, part in zip(named, taken))


def heads(path):
    """The name of each definition of a file, its head, and that of the modules around it."""
    around = []
    lines = without_comments(open(path, encoding="utf-8").read(), "--").split("\n")
    for number, line in enumerate(lines):
        start = HEAD.match(line)
        if start is None:
            continue
        depth = len(start.group(1))
        head = start.group(4)
        for more in lines[number + 1:]:
            if re.search(r"\bwhere\b", head) or len(more) - len(more.lstrip()) <= depth:
                break
            head += " " + more.strip()
        head = re.split(r"\bwhere\b", head)[0]
        around = [(at, other) for at, other in around if at < depth]
        if "module" in start.group(2):
            around.append((depth, head))
        elif re.search("abbrev|unfoldable|record|data", start.group(2)):
            yield start.group(3), head, [other for _, other in around]


def long_definitions():
    """Prints each definition with too many arguments by place, and counts them."""
    wrong = 0
    for _, module in sorted(MODULES.items()):
        for name, head, around in heads(module.path):
            count = arguments(head) + sum(bound(other) for other in around)
            if count > MOST_ARGUMENTS:
                print(f"{module.path}: {name} has {count} arguments by place")
                wrong += 1
    print(f"{wrong} definitions with more than {MOST_ARGUMENTS} arguments by place")
    return wrong


# LEMMAS

def lemmas(path):
    """The name of each item of a file that defines nothing, in its order."""
    text = USE_LIST.sub("", without_comments(open(path, encoding="utf-8").read(), "--"))
    levels, head, enters, named, found = [0], "", False, set(), []
    operators = set()
    for line in filter(str.strip, text.split("\n")):
        depth = len(line) - len(line.lstrip())
        if head:
            # the head of a module goes on to its `where`
            head, enters = ("", True) if re.search(r"\bwhere\b", line) else (head, False)
            continue
        if enters and depth > levels[-1]:
            levels.append(depth)
        while depth < levels[-1]:
            levels.pop()
        enters, item = False, HEAD.match(line)
        if item is None or depth != levels[-1] or not re.match(r"\w", item.group(3)):
            continue
        name = item.group(3)
        # an operator is named once, and its clauses have it between what it is of
        if name in ("infixl", "infixr", "infix"):
            operators.add(line.split()[-1].replace("◌", ""))
            continue
        if any(operator in line.split(" = ")[0] for operator in operators):
            continue
        if "module" in item.group(2):
            head, enters = ("", True) if re.search(r"\bwhere\b", line) else (line, False)
        # what follows a name that was named before is one of its clauses
        elif name not in named and name not in ("use", "mod", "unfolding"):
            named.add(name)
            if not re.search("abbrev|unfoldable|record|data", item.group(2)):
                found.append(name)
    return found


def lemmas_of_specs():
    """Prints each lemma of specs/, and counts them. A ghost item can name no proof of its own
    crate: it states its own term, a field of the type's invariant, or a proof of a crate below.
    """
    count = 0
    for _, module in sorted(MODULES.items()):
        for name in lemmas(module.path):
            print(f"{module.path}: {name} is a lemma, and lemmas stand under proofs/")
            count += 1
    print(f"{count} lemmas in specs/")
    return count


failed = missed_files() + wrong_counts() + long_definitions() + lemmas_of_specs()
sys.exit(1 if failed else 0)
