#!/usr/bin/env python3
"""Makes a plain Rust workspace of the crates of the search and of certificates of a clone.

usage: plain_rust.py CLONE WORKSPACE [--checked] [--repr-c] [--trace=NAME,NAME..]

Strips contracts and ghost code, and gives what is left a shim crate `plain_std` in place of the kit's std. Line numbers stay.
A file of `own/` stands for the one of its crate and name, as where that has a Drop of its own, which takes the value here.
An index `a[i]` is not checked, as in the kit's build; with --checked it is. With --repr-c the fields of structs lie in the
order of the source, as in the kit's build. With --trace each call of a function of these names is told on standard error
with its time, where the program runs with TRACE=1.
"""
import os
import re
import shutil
import sys

SEARCH = "tail_book turn_rules maint_counters label_cells connection_net branch_marks open_branches floor_rows propagator label_store \
pricing route_search plan_audit dive_heuristic restricted_master dual_ascent pool_plans plan_finder node_leaves branch_tree best_first tail_text tail_outside cert_lines cert_checker cert_writer certified_search \
plan_homes plan_report plan_remains plan_repair fullest_plan plan_shortage shortage_suspects shortage_finder \
quota_rows fee_pricing quota_split fee_master quota_demands quota_node quota_search".split()
# Crates that read tables, as `plain` does itself: a file of own/ stands for what calls them.
READERS = {"table_records"}
HERE = os.path.dirname(os.path.abspath(__file__))
# Crates of the kit that the shim stands for, as modules of plain_std.
SHIMMED = {"indexmap", "itoa", "std_alloc"}
KEYWORDS = set("as break const continue crate dyn else enum extern fn for if impl in let loop match mod move mut pub ref return "
               "static struct trait type unsafe use where while await box yield".split())
TOKEN = re.compile(r"""
    (?P<comment>//[^\n]*|/\*.*?\*/)
  | (?P<string>(?:b|c)?r(?P<hash>\#*)".*?"(?P=hash)|(?:b|c)?"(?:[^"\\]|\\.)*")
  | (?P<char>b?'(?:[^'\\\n]|\\(?:x[0-9a-fA-F]{2}|u\{[0-9a-fA-F_]+\}|.))')
  | (?P<life>'[A-Za-z_]\w*)
  | (?P<number>[0-9](?:[0-9a-zA-Z_]|\.(?=[0-9]))*)
  | (?P<word>\w+)
  | (?P<space>\s+)
  | (?P<mark>::|\.\.=|\.\.|->|=>|&&|\|\||[^\w\s])
""", re.X | re.S)


def newlines(text):
    return "\n" * text.count("\n")


def braces_end(text, at):
    """The place behind the braces that begin at `at`."""
    depth = 0
    while True:
        if text[at] == "{":
            depth += 1
        elif text[at] == "}":
            depth -= 1
            if depth == 0:
                return at + 1
        at += 1


def clause_end(text, at):
    """The place behind a clause: words, and then braces."""
    return braces_end(text, text.index("{", at))


def ghost_end(text, at):
    """The place behind a ghost item that begins at `at`, with its end mark."""
    if re.compile(r"ghost\s+use\b").match(text, at):
        at = text.index("ghost", at)
        depth = 0
        while text[at] != ";" or depth:
            depth += {"{": 1, "}": -1}.get(text[at], 0)
            at += 1
        return at + 1
    at = clause_end(text, at)
    more = re.compile(r"\s*=\s*(?=\{)").match(text, at)
    if more:
        at = braces_end(text, more.end())
    mark = re.compile(r"\s*[;,]").match(text, at)
    return mark.end() if mark else at


def tokens_of(text):
    """The tokens of the code, with no ghost code in it: a list of [kind, text]."""
    tokens, at = [], 0
    while at < len(text):
        found = TOKEN.match(text, at)
        kind, word = found.lastgroup, found.group()
        if kind == "hash":
            kind = "string"
        end = found.end()
        if kind == "word" and word == "ghost":
            end = ghost_end(text, at)
            drop_visibility(tokens)
            drop_document(tokens)
            kind, word = "space", newlines(text[at:end])
        elif kind == "word" and word in ("requires", "ensures"):
            end = clause_end(text, at)
            kind, word = "space", newlines(text[at:end])
        elif kind == "comment" and word.startswith("//!"):
            word = "// " + word[3:]
        tokens.append([kind, word])
        at = end
    return tokens


def drop_visibility(tokens):
    """Takes away `pub`, or `pub(..)`, at the end."""
    at = len(tokens) - 1
    while at >= 0 and tokens[at][0] == "space":
        at -= 1
    if at >= 0 and tokens[at][1] == ")":
        start = at
        while start >= 0 and tokens[start][1] != "(":
            start -= 1
        if start > 0 and tokens[start - 1][1] == "pub":
            for token in tokens[start - 1:at + 1]:
                token[0], token[1] = "space", ""
    elif at >= 0 and tokens[at][1] == "pub":
        tokens[at][0], tokens[at][1] = "space", ""


def drop_document(tokens):
    """Makes plain comments of what stands at the end to document a ghost item."""
    at = len(tokens) - 1
    while at >= 0 and tokens[at][0] in ("space", "comment"):
        if tokens[at][1].startswith("///"):
            tokens[at][1] = "// " + tokens[at][1][3:]
        at -= 1


class Code:
    """Tokens that count, and what stands between them."""

    def __init__(self, tokens):
        self.tokens = tokens
        self.places = [i for i, (kind, _) in enumerate(tokens) if kind not in ("space", "comment")]

    def word(self, j):
        return self.tokens[self.places[j]][1] if 0 <= j < len(self.places) else ""

    def kind(self, j):
        return self.tokens[self.places[j]][0] if 0 <= j < len(self.places) else ""

    def put(self, j, word):
        self.tokens[self.places[j]][1] = word

    def __len__(self):
        return len(self.places)

    def close(self, j):
        """The bracket that closes the one at j."""
        pairs = {"(": ")", "[": "]", "{": "}"}
        stack = []
        while True:
            word = self.word(j)
            if self.kind(j) == "mark":
                if word in pairs:
                    stack.append(pairs[word])
                elif stack and word == stack[-1]:
                    stack.pop()
                    if not stack:
                        return j
            j += 1

    def wipe(self, first, last):
        for j in range(first, last + 1):
            self.put(j, "")


def rewrite_attributes(code):
    j = 0
    while j < len(code):
        if code.word(j) == "#":
            start = j + 2 if code.word(j + 1) == "!" else j + 1
            if code.word(start) == "[":
                end = code.close(start)
                name = code.word(start + 1)
                if name in ("tactic", "cycle"):
                    code.wipe(j, end)
                elif name == "derive":
                    for k in range(start + 3, end):
                        if code.word(k) == "Drop":
                            code.put(k, "")
                            if code.word(k + 1) == ",":
                                code.put(k + 1, "")
                j = end
        j += 1


def has_arguments(code, j):
    return code.word(j) == "(" and code.word(j + 1) != ")"


# Methods of the kit that have another form in Rust: those that are renamed where they have arguments, and always.
WITH_ARGUMENTS = {"collect", "to_vec", "try_collect", "sort", "sort_by", "sort_by_key"}
ALWAYS = {"clone"}


def rewrite_calls(code):
    for j in range(len(code)):
        word, before, behind = code.word(j), code.word(j - 1), code.word(j + 1)
        if code.kind(j) != "word":
            continue
        if word == "std" and behind == "::" and (before != "::" or code.word(j - 2) in ("", "use")):
            code.put(j, "plain_std")
        elif word in SHIMMED and behind == "::" and before != "::":
            code.put(j, "plain_std::" + word)
        elif word == "vec" and behind == "!":
            code.put(j, "plain_std::vec")
        elif before == "." and word in ALWAYS and behind in ("(", "::"):
            code.put(j, "rt_" + word)
        elif before == "." and word in WITH_ARGUMENTS:
            if behind == "(" and has_arguments(code, j + 1) and word != "sort_by" and word != "sort_by_key":
                code.put(j, "rt_" + word)


def is_value_end(code, j):
    """Whether an index may follow: a value ends here."""
    kind, word = code.kind(j), code.word(j)
    if kind == "word":
        return word not in KEYWORDS
    return kind == "mark" and word in (")", "]", "?")


def rewrite_indices(code, skipped):
    """Writes a[U(i)] for a[i], where i is no range. `skipped` are places in constants."""
    j = 0
    while j < len(code):
        if code.word(j) == "[" and code.kind(j) == "mark" and j > 0 and is_value_end(code, j - 1) and j not in skipped:
            end = code.close(j)
            depth, is_range = 0, False
            for k in range(j + 1, end):
                word = code.word(k) if code.kind(k) == "mark" else ""
                depth += {"(": 1, "[": 1, "{": 1, ")": -1, "]": -1, "}": -1}.get(word, 0)
                is_range = is_range or (word in ("..", "..=") and depth == 0)
            if not is_range and not (code.word(j - 1) == "]" and is_attribute_end(code, j - 1)):
                code.put(j, "[plain_std::At(")
                code.put(end, ")" + code.word(end))
        j += 1


def is_attribute_end(code, j):
    """Whether the bracket at j closes an attribute."""
    depth = 0
    while j >= 0:
        depth += {"]": 1, "[": -1}.get(code.word(j), 0)
        if depth == 0:
            return code.word(j - 1) in ("#", "!")
        j -= 1
    return False


def places_in_constants(code):
    """The places within the values of const and static items, where no method of a trait may be called."""
    places = set()
    for j in range(len(code)):
        if code.word(j) in ("const", "static") and code.word(j + 1) not in ("fn", "unsafe") and code.word(j - 1) != "*":
            k, depth = j, 0
            while k < len(code) and not (code.word(k) == ";" and depth == 0) and depth >= 0:
                depth += {"(": 1, "[": 1, "{": 1, ")": -1, "]": -1, "}": -1}.get(code.word(k), 0)
                places.add(k)
                k += 1
    return places


def rewrite_modules(code):
    """Inline modules bring in the prelude."""
    for j in range(len(code)):
        if code.word(j) == "mod" and code.kind(j) == "word" and code.word(j + 2) == "{":
            code.put(j + 2, "{ use plain_std::prelude::*; ")


def rewrite_structs(code):
    for j in range(len(code)):
        if code.word(j) == "struct" and code.kind(j) == "word" and code.kind(j + 1) == "word":
            k = j
            while k > 0 and (code.word(k - 1) in ("pub", ")", "crate", "(", "super")):
                k -= 1
            code.put(k, "#[repr(C)] " + code.word(k))


def rewrite_traced(code, names):
    """Bodies of functions of these names begin with a probe."""
    for j in range(len(code)):
        if code.word(j) == "fn" and code.word(j + 1) in names:
            k = j + 2
            while code.word(k) != "(":
                k += 1
            k = code.close(k)
            while code.word(k) not in ("{", ";", ""):
                k += 1
            if code.word(k) == "{":
                code.put(k, '{ let _probe = plain_std::Probe::new("' + code.word(j + 1) + '"); ')


def plain(text, options, root):
    tokens = tokens_of(text)
    code = Code(tokens)
    rewrite_attributes(code)
    code = Code([token for token in tokens if token[1] != ""])
    rewrite_calls(code)
    if "--checked" not in options:
        rewrite_indices(code, places_in_constants(code))
    rewrite_modules(code)
    traced = {name for option in options if option.startswith("--trace=") for name in option[8:].split(",")}
    rewrite_traced(code, traced)
    if "--repr-c" in options:
        rewrite_structs(code)
    head = ("#![allow(warnings)] " if root else "") + "use plain_std::prelude::*; "
    return head + "".join(token[1] for token in code.tokens)


def crates_of(clone):
    """The crates of crates.txt, with what each calls."""
    crates = {}
    with open(os.path.join(clone, "crates.txt"), encoding="utf-8") as file:
        for line in file:
            line = line.split("#")[0].strip()
            if line:
                name, _, calls = line.partition(":")
                crates[name.split()[0]] = calls.split()
    return crates


def closure(crates, wanted):
    found = []

    def visit(name):
        if name in crates and name not in found and name not in READERS:
            for call in crates[name]:
                visit(call)
            found.append(name)
    for name in wanted:
        visit(name)
    return found


def write(path, text):
    os.makedirs(os.path.dirname(path), exist_ok=True)
    if os.path.exists(path):
        with open(path, encoding="utf-8") as file:
            if file.read() == text:
                return
    with open(path, "w", encoding="utf-8") as file:
        file.write(text)


def make_crate(clone, workspace, name, calls, options):
    source = os.path.join(clone, "crates", name, "src")
    target = os.path.join(workspace, "crates", name, "src")
    wanted = set()
    for folder, _, files in os.walk(source):
        for file in files:
            if file.endswith(".rt"):
                relative = os.path.relpath(os.path.join(folder, file), source)
                with open(os.path.join(folder, file), encoding="utf-8") as stream:
                    text = stream.read()
                path = os.path.join(target, relative[:-3] + ".rs")
                wanted.add(path)
                own = os.path.join(HERE, "own", name, relative[:-3] + ".rs")
                if os.path.exists(own):
                    with open(own, encoding="utf-8") as stream:
                        write(path, stream.read())
                else:
                    write(path, plain(text, options, relative in ("lib.rt", "main.rt")))
    for folder, _, files in os.walk(target):
        for file in files:
            if os.path.join(folder, file) not in wanted:
                os.remove(os.path.join(folder, file))
    lines = [f'[package]\nname = "{name}"\nversion = "0.1.0"\nedition = "2024"\n\n[dependencies]', 'plain_std = { path = "../plain_std" }']
    lines += [f'{call} = {{ path = "../{call}" }}' for call in calls]
    write(os.path.join(workspace, "crates", name, "Cargo.toml"), "\n".join(lines) + "\n")


def make_workspace(clone, workspace, options, wanted):
    crates = crates_of(clone)
    names = closure(crates, wanted)
    for name in names:
        make_crate(clone, workspace, name, [c for c in crates[name] if c in crates and c not in READERS], options)
    for own in ("plain_std", "plain"):
        source = os.path.join(HERE, own)
        for folder, _, files in os.walk(source):
            for file in files:
                path = os.path.join(folder, file)
                with open(path, encoding="utf-8") as stream:
                    text = stream.read()
                write(os.path.join(workspace, "crates", own, os.path.relpath(path, source)), text)
    members = ", ".join(f'"crates/{name}"' for name in names + ["plain_std", "plain"])
    profile = '[profile.release]\nopt-level = 3\ncodegen-units = 1\nlto = "fat"\ndebug = 1\npanic = "abort"\noverflow-checks = false\n'
    write(os.path.join(workspace, "Cargo.toml"), f'[workspace]\nresolver = "2"\nmembers = [{members}]\n\n{profile}')
    for folder in os.listdir(os.path.join(workspace, "crates")):
        if folder not in names + ["plain_std", "plain"]:
            shutil.rmtree(os.path.join(workspace, "crates", folder))


def main(words):
    options = {word for word in words if word.startswith("--")}
    if not all(option in ("--checked", "--repr-c") or option.startswith("--trace=") for option in options):
        sys.exit(__doc__)
    words = [word for word in words if not word.startswith("--")]
    if len(words) != 2:
        sys.exit(__doc__)
    make_workspace(os.path.abspath(words[0]), os.path.abspath(words[1]), options, SEARCH)


if __name__ == "__main__":
    main(sys.argv[1:])
