#!/usr/bin/env python3
"""Checks that what README.md and docs/ say of the sources is so.

usage: .ci/docs.py [PASSED FAILED]    checks; the last line is 'N passed, M failed', with the given counts added
       .ci/docs.py write              writes the lists of docs/STATEMENT.md anew

1. docs/STATEMENT.md lists the files that the claim needs: those of all definitions, traits, types and constants that are
   reached from the clauses of the functions in CLAIM, by the `use` lines of each file.
2. Each word of the tables of docs/RULES.md stands in the file that the table names for it.
3. Each file and crate that a page names is there, and each name in a crate's README.md stands in its sources, or in those
   of a crate that it names.
4. Each crate has a README.md and a comment above its line in crates.txt; no page and no line is too long.
5. Each planted mistake of planted/ can be made: each text that it takes away stands in its file once.
6. Each number of NUMBERS stands on its page as the sources have it, and docs/OPERATING.md has no other large number than
   these and those of OTHER_NUMBERS.
"""

import os
import re
import sys
import textwrap

TOP = os.path.dirname(os.path.dirname(os.path.abspath(__file__)))
CRATES = os.path.join(TOP, "crates")

# The functions whose clauses are the claim, and the headings of their lists in docs/STATEMENT.md. The second list has what
# isn't in the first.
CLAIM = [("lives", ("el_program", "live")), ("serve", ("el_program", "serve"))]

# What a page says of a number, and the crate and the constant that it is; `{0}` is it without commas.
NUMBERS = [
    ("docs/OPERATING.md", "`--pool-count`, from 1 to {},", "el_words", "MAX_POOL_COUNT"),
    ("docs/OPERATING.md", "`--pool-bytes`, from 1 to {},", "el_words", "MAX_POOL_BYTES"),
    ("docs/OPERATING.md", "of `N` blocks, from 1 to {}, and a side branch", "el_gen", "MOST_MADE"),
    ("docs/OPERATING.md", "chains of up to {} bytes of blocks are audited", "el_audit_run", "MAX_AUDIT_BYTES"),
    ("docs/OPERATING.md", "have `B` bytes together, more than {} |", "el_audit_run", "MAX_AUDIT_BYTES"),
    ("docs/OPERATING.md", "has {} that wait", "el_relay_folder", "MOST_WAITING"),
    ("docs/OPERATING.md", "of the last {} transactions that it took", "el_relay", "MOST_TXIDS"),
    ("docs/OPERATING.md", "with more than {} unsent bytes isn't read", "el_sockets", "STALLED_FROM"),
    ("docs/OPERATING.md", "a message would make them more than {} is gone", "el_sockets", "UNSENT_LIMIT"),
    ("docs/OPERATING.md", "At most {} clients are connected", "el_outside", "CLIENT_LIMIT"),
    ("docs/OPERATING.md", "with numbers below {}.", "el_outside", "MOST_FILES"),
    ("docs/OPERATING.md", "**{} clients.**", "el_outside", "CLIENT_LIMIT"),
    ("docs/OPERATING.md", "up to {} bytes of unsent replies", "el_sockets", "UNSENT_LIMIT"),
    ("docs/OPERATING.md", "answers at most {} headers", "el_methods", "HEADER_LIMIT"),
    ("docs/OPERATING.md", "`history too large`: more than {} entries", "el_methods", "ENTRY_LIMIT"),
    ("docs/OPERATING.md", "`too many subscriptions`: {};", "el_sessions", "SUBSCRIPTION_LIMIT"),
    ("docs/OPERATING.md", "the replies before have more than {} bytes", "el_replies", "BATCH_LIMIT"),
    ("docs/OPERATING.md", "A line has more than {} bytes without", "el_lines", "LINE_LIMIT"),
    ("docs/OPERATING.md", "{} others are connected", "el_outside", "CLIENT_LIMIT"),
    ("docs/OPERATING.md", "would be taken back, and that is more than {} |", "el_chain", "MAX_BACK"),
    ("docs/OPERATING.md", "`refused long {0}`", "el_lines", "NODE_LINE_LIMIT"),
    ("docs/OPERATING.md", "each of at most {} new blocks", "el_chain", "MAX_FORWARD"),
    ("docs/OPERATING.md", "a weight above {} |", "el_block", "MAX_BLOCK_WEIGHT"),
    ("docs/OPERATING.md", "coins above {} satoshi", "el_tx", "MAX_MONEY"),
    ("docs/OPERATING.md", "beyond its most rows, {} for blocks", "el_chain", "MAX_BLOCKS"),
    ("docs/OPERATING.md", "for blocks and {} for each other", "el_chain", "MAX_ROWS"),
    ("docs/OPERATING.md", "| More than {} bytes would be unsent to it", "el_sockets", "UNSENT_LIMIT"),
    ("docs/OPERATING.md", "the block files in pieces of {} bytes", "el_files", "PIECE_SIZE"),
    ("docs/OPERATING.md", "at most {} pages of", "el_page_cache", "MAX_PAGES"),
    ("docs/OPERATING.md", "pages of {} bytes of them", "el_page_cache", "PAGE_BYTES"),
    ("docs/OPERATING.md", "none where it asks of the same {} headers", "el_levels", "GROUP"),
    ("docs/OPERATING.md", "was asked last is kept while the chain stays, up to {} transactions", "el_levels", "TXID_LIMIT"),
    ("docs/OPERATING.md", "A reply lists at most {} entries", "el_methods", "ENTRY_LIMIT"),
    ("docs/OPERATING.md", "The table of blocks has at most {} rows", "el_chain", "MAX_BLOCKS"),
    ("docs/OPERATING.md", "and each other at most {};", "el_chain", "MAX_ROWS"),
    ("README.md", "It serves up to {} of them at once", "el_outside", "CLIENT_LIMIT"),
    ("README.md", "Up to {} clients at a time", "el_outside", "CLIENT_LIMIT"),
    ("README.md", "and {} subscriptions of each", "el_sessions", "SUBSCRIPTION_LIMIT"),
    ("README.md", "reorganisations of up to {} blocks", "el_chain", "MAX_BACK"),
    ("README.md", "{} connections, also silent ones", "el_outside", "CLIENT_LIMIT"),
]
# Large numbers of docs/OPERATING.md that are no constant: ports, two heights, the bytes of heads, numbers of buckets, and
# an example.
OTHER_NUMBERS = {"65,535", "1,024", "91,722", "91,880", "1,048,576", "65,536", "16,777,216", "1,000,000"}

README_LINES = 150
CRATE_README_LINES = 20
COLUMNS = 120

WORD = re.compile(r"[A-Za-z_][A-Za-z0-9_']*")
# Where a definition, or a type, trait or constant of a program file, begins, with its name.
DEFINITION = re.compile(r"^(?:  )?(?:abbrev pub|unfoldable pub|pub record|pub data) ([A-Za-z_][A-Za-z0-9_']*)")
CONSTRUCTOR = re.compile(r"^  ([A-Za-z_][A-Za-z0-9_']*) :")
ITEM = re.compile(r"^pub (?:struct|enum|trait|const|type|fn) ([A-Za-z_][A-Za-z0-9_]*)")
IMPORT = re.compile(r"^\s*(?:pub |ghost )?use ([A-Za-z_0-9.:]+?)(?:\.|::)?(?:\{(.*)\})?(?: as (\w+))?;?$", re.M)


def read(*path):
    with open(os.path.join(TOP, *path), encoding="utf-8") as it:
        return it.read()


def crates():
    """The crates in the order of crates.txt, each with the comment on the lines above its own."""
    found, comment = {}, []
    for line in read("crates.txt").splitlines():
        if line.startswith("#"):
            comment.append(line)
            continue
        if line.strip():
            found[WORD.match(line).group()] = " ".join(comment)
        comment = []
    return found


class Source:
    """A file of definitions or of the program: the parts that it has by name, and what its imports name."""

    def __init__(self, path):
        self.path = path
        self.text = read("crates", path)
        self.parts = {}
        self.names = {}
        begins = ITEM if path.endswith(".rt") else DEFINITION
        part = None
        for line in self.text.splitlines():
            begun = begins.match(line)
            if begun:
                part = begun.group(1)
                self.parts[part] = ""
                self.names[part] = part
            elif path.endswith(".rt") and part and re.match(r"^(\{|impl|#\[|fn |pub\(crate\)|mod )", line):
                part = None
            if part:
                made = CONSTRUCTOR.match(line)
                if made and path.endswith(".antt"):
                    self.names.setdefault(made.group(1), part)
                if not re.match(r"\s*(--|//)", line):
                    self.parts[part] += line + "\n"


class Sources:
    """All files, read as they are needed."""

    def __init__(self):
        self.sources = {}
        self.homes = {}

    def at(self, path):
        if path not in self.sources:
            there = os.path.isfile(os.path.join(CRATES, path))
            self.sources[path] = Source(path) if there else None
        return self.sources[path]

    def home(self, crate, name):
        """The program file of the crate that has the public item of that name."""
        if crate not in self.homes:
            self.homes[crate] = {}
            folder = os.path.join(CRATES, crate, "src")
            for file in sorted(os.listdir(folder)) if os.path.isdir(folder) else []:
                if file.endswith(".rt"):
                    path = f"{crate}/src/{file}"
                    for item in self.at(path).parts:
                        self.homes[crate].setdefault(item, path)
        return self.homes[crate].get(name)

    def imports(self, source):
        """What each word that the file imports names: a file, and the part of it, or None for all of it."""
        own = source.path.split("/")[0]
        found = {}
        for path, names, alias in IMPORT.findall(source.text):
            words = re.split(r"\.|::", path)
            names = [name.strip().split(" as ") for name in names.split(",")] if names else []
            if words[0] == "Rattle" and "specs" in words[1:3]:
                for word, target in self.of_definitions(words, names, alias):
                    found[word] = target
            elif words[0] == "crate" or words[0].startswith("el_"):
                crate = own if words[0] == "crate" else words[0]
                for name in names or [[words[-1]]]:
                    if self.home(crate, name[0]):
                        found[alias or name[-1]] = (self.home(crate, name[0]), name[0])
        return found

    def of_definitions(self, words, names, alias):
        crate, rest = words[1], words[3:]
        if crate not in crates():
            return []
        if rest[0] == "declared":
            path, item = f"{crate}/src/{rest[1]}.rt", rest[2]
            if item == "TheConstants":
                return [(name[-1], (path, name[0])) for name in names]
            return [(word, (path, item)) for word in ([alias] if alias else [name[-1] for name in names])]
        while rest and not self.at(f"{crate}/specs/{'/'.join(rest)}.antt"):
            rest = rest[:-1]
        path = f"{crate}/specs/{'/'.join(rest)}.antt"
        if not rest:
            return []
        return [(alias, (path, None))] if alias else [(name[-1], (path, name[0])) for name in names]

    def named_in(self, source, text):
        """The parts that a text of this file names."""
        imports = self.imports(source)
        for found in re.finditer(r"([A-Za-z_][A-Za-z0-9_']*)(?:\.([A-Za-z_][A-Za-z0-9_']*))?", text):
            word, member = found.groups()
            path, name = imports.get(word, (source.path if word in source.names else None, word))
            if path and self.at(path):
                name = member if name is None else name
                part = self.at(path).names.get(name)
                if part:
                    yield path, part

    def reached(self, crate, function):
        """All parts that the clauses of a public function need, as pairs of file and name."""
        path = self.home(crate, function)
        if not path:
            raise SystemExit(f"docs: {crate} has no public function {function}")
        todo = list(self.named_in(self.at(path), self.at(path).parts[function]))
        done = {(path, function)}
        while todo:
            part = todo.pop()
            if part not in done:
                done.add(part)
                source = self.at(part[0])
                todo += self.named_in(source, source.parts[part[1]])
        return done - {(path, function)}


def in_reading_order(sources, paths):
    """The files, the crates in the order of crates.txt, and in a crate each after those that it imports."""
    order, begun, placed = list(crates()), set(), []

    def place(path):
        if path in paths and path not in begun:
            begun.add(path)
            for target in sorted({target for target, _ in sources.imports(sources.at(path)).values()}):
                if target.split("/")[0] == path.split("/")[0]:
                    place(target)
            placed.append(path)

    for path in sorted(paths, key=lambda path: (order.index(path.split("/")[0]), path)):
        place(path)
    return placed


def lists():
    """The lists of docs/STATEMENT.md, by their headings, as lines."""
    sources, known, made = Sources(), set(), {}
    for heading, function in CLAIM:
        reached = {part for part in sources.reached(*function) if part[0] not in known}
        known |= {path for path, _ in reached}
        made[heading] = list_of(sources, reached)
    return made


def list_of(sources, parts):
    """The files of these parts: first those of definitions, then those of the program."""
    definitions = in_reading_order(sources, {path for path, _ in parts if path.endswith(".antt")})
    items = in_reading_order(sources, {path for path, _ in parts if path.endswith(".rt")})
    count = sum(sources.at(path).parts[name].count("\n") for path, name in parts if path.endswith(".antt"))
    lines = [f"{len(definitions)} files of definitions, of which about {round(count, -2)} lines are needed:", ""] if parts else ["Nothing."]
    lines += by_folder((path, [os.path.basename(path).removesuffix(".antt")]) for path in definitions)
    if items:
        lines += ["", "The types, traits and constants of the program that they speak of:", ""]
        lines += by_folder((path, [name for name in sources.at(path).parts if (path, name) in parts]) for path in items)
    return lines


def by_folder(files):
    """One item for each folder, with what is named of its files in their order; each file is a path and these names."""
    folders = {}
    for path, names in files:
        folders.setdefault(os.path.dirname(path), []).extend(f"`{name}`" for name in names)
    wide = dict(width=COLUMNS, subsequent_indent="  ", break_long_words=False, break_on_hyphens=False)
    return [line for folder, names in folders.items() for line in textwrap.wrap(f"- `{folder}`: {', '.join(names)}", **wide)]


def with_lists(page):
    """The page with the lists made anew, each between two marks."""
    for heading, lines in lists().items():
        start, end = f"<!-- list: {heading} -->", "<!-- end of the list -->"
        if start not in page:
            raise SystemExit(f"docs: docs/STATEMENT.md has no mark {start}")
        before, after = page.split(start, 1)
        page = before + "\n".join([start, *lines, end]) + after.split(end, 1)[1]
    return page


def wrong_lists():
    page = read("docs", "STATEMENT.md")
    if page != with_lists(page):
        yield "docs/STATEMENT.md is not what the sources give: run .ci/docs.py write"


def stands_in(word, column, path):
    """Whether the file defines the word, or has a function, a trait, a type or a clause of that name."""
    source = Source(path)
    if column == "Definition":
        return word in source.names
    return word in source.parts or re.search(rf"\b(?:fn|ensures|trait) {re.escape(word)}\b", source.text)


def wrong_rules():
    """The words of docs/RULES.md that don't stand where they are to stand."""
    rows = [line.strip("| ").split(" | ") for line in read("docs", "RULES.md").splitlines() if line.startswith("| ")]
    for row in rows[1:]:
        if len(row) != len(rows[0]):
            yield f"docs/RULES.md: a row has other cells than the heading: {row[0]}"
        for column, cell in list(zip(rows[0], row))[1:]:
            parts = re.findall(r"`([^`]+)`: ([^;]+)", cell)
            if len(parts) != cell.count(";") + 1:
                yield f"docs/RULES.md: not a file and its words, or several with ';' between: {cell}"
            for path, words in parts:
                if not os.path.isfile(os.path.join(CRATES, path)):
                    yield f"docs/RULES.md: no file {path}"
                else:
                    for word in re.findall(r"`([^`]+)`", words):
                        if not stands_in(word, column, path):
                            yield f"docs/RULES.md: {path} has no {word}"


def pages():
    """All pages, each with the crate whose README it is, or None."""
    yield "README.md", None
    for name in sorted(os.listdir(os.path.join(TOP, "docs"))):
        yield f"docs/{name}", None
    for crate in crates():
        if os.path.isfile(os.path.join(CRATES, crate, "README.md")):
            yield f"crates/{crate}/README.md", crate


def plain(page):
    """The page without its examples."""
    return re.sub(r"```.*?```", "", read(page), flags=re.S)


def wrong_names():
    """Files and crates that a page names and that aren't there."""
    known = crates()
    files = {file for _, _, found in os.walk(CRATES) for file in found}
    for page, crate in pages():
        text = plain(page)
        for name in set(re.findall(r"`([A-Za-z_.][\w./-]*)`", text) + re.findall(r"\]\(([\w./-]+)\)", text)):
            if re.fullmatch(r"el_\w+|electrum_serve", name):
                if name not in known:
                    yield f"{page}: no crate {name}"
            elif re.search(r"\.(rt|antt|md|py|edit)$|^(crates|docs|\.ci)/|/(src|specs|proofs)/", name):
                places = [name, f"crates/{name}", f"docs/{name}", f"crates/{crate}/{name}"]
                if name not in files and not any(os.path.exists(os.path.join(TOP, place)) for place in places):
                    yield f"{page}: no file {name}"


def words_of(crate):
    """All words of a crate's sources."""
    found = set()
    for folder in ("src", "specs"):
        for at, _, files in os.walk(os.path.join(CRATES, crate, folder)):
            for file in files:
                if file.endswith((".rt", ".antt")):
                    found |= set(WORD.findall(read(at, file)))
    return found


def wrong_words():
    """Names in a crate's README that stand neither in its sources nor in those of a crate that it names."""
    known = crates()
    for page, crate in pages():
        if crate:
            names = re.findall(r"`(\w+(?:::\w+)*)`", plain(page))
            words = set(known).union(*(words_of(it) for it in {crate, *names} if it in known))
            for name in names:
                if not set(name.split("::")) <= words:
                    yield f"{page}: no {name} in the crate"


def wrong_sizes():
    """Pages that are too long, lines that are, and crates that nothing is said of."""
    for page, crate in pages():
        for line in plain(page).splitlines():
            if len(line) > COLUMNS and not line.startswith("|"):
                yield f"{page}: a line of {len(line)} characters: {line[:40]}"
        most = CRATE_README_LINES if crate else README_LINES if page == "README.md" else None
        if most and read(page).count("\n") > most:
            yield f"{page}: more than {most} lines"
    for crate, comment in crates().items():
        if not os.path.isfile(os.path.join(CRATES, crate, "README.md")):
            yield f"crates/{crate}: no README.md"
        if not comment:
            yield f"crates.txt: no comment on {crate}"


def wrong_mistakes():
    """Planted mistakes that can't be made any more."""
    folder = os.path.join(TOP, "planted")
    for crate in sorted(os.listdir(folder)):
        for edit in sorted(os.listdir(os.path.join(folder, crate))):
            lines = read("planted", crate, edit).splitlines()
            text = read("crates", crate, lines[0].removeprefix("file: "))
            if any(text.count(line.removeprefix("old: ")) != 1 for line in lines if line.startswith("old: ")):
                yield f"planted/{crate}/{edit}: a text that it takes away doesn't stand in its file once"


def constant(crate, name):
    """The value of a constant of a crate; None where it isn't there, or is no number."""
    folder = os.path.join(CRATES, crate, "src")
    for at, _, files in os.walk(folder):
        for file in sorted(files):
            found = re.search(rf"\bconst {name}: \w+ = ([\d_]+);", read(at, file)) if file.endswith(".rt") else None
            if found:
                return int(found.group(1).replace("_", ""))
    return None


def wrong_numbers():
    """Numbers of pages that aren't those of the sources, and large ones of which that isn't looked at."""
    known = set(OTHER_NUMBERS)
    for page, words, crate, name in NUMBERS:
        value = constant(crate, name)
        if value is None:
            yield f"{crate}: no constant {name}"
            continue
        shown = f"{value:,}"
        known.add(shown)
        if words.replace("{0}", str(value)).replace("{}", shown) not in " ".join(read(page).split()):
            yield f"{page}: doesn't say of {name}, which is {shown}: {words}"
    for number in sorted(set(re.findall(r"\d{1,3}(?:,\d{3})+", plain("docs/OPERATING.md"))) - known):
        yield f"docs/OPERATING.md: {number} is compared with no constant: give it a line in NUMBERS"


def main(given):
    if given == ["write"]:
        page = with_lists(read("docs", "STATEMENT.md"))
        with open(os.path.join(TOP, "docs", "STATEMENT.md"), "w", encoding="utf-8") as it:
            it.write(page)
        return 0
    passed, failed = (int(given[0]), int(given[1])) if len(given) == 2 else (0, 0)
    for check in (wrong_lists, wrong_rules, wrong_names, wrong_words, wrong_sizes, wrong_mistakes, wrong_numbers):
        wrong = list(check())
        for line in wrong:
            print(f"docs: {line}")
        passed, failed = (passed, failed + 1) if wrong else (passed + 1, failed)
    print(f"{passed} passed, {failed} failed")
    return 1 if failed else 0


if __name__ == "__main__":
    sys.exit(main(sys.argv[1:]))
