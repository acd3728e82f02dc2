"""The functions of a crate: where each stands in its sources, and which of them an edit changes."""
import re
from dataclasses import dataclass

# Comments, strings and characters of a .rt file.
NO_CODE = re.compile(
    r"//[^\n]*|/\*.*?\*/|\bb?r(#*)\".*?\"\1|b?\"(?:\\.|[^\"\\])*\"|b?'(?:\\[^']+|[^'\\\n])'", re.S
)
TYPE = re.compile(r"(?m)^\s*(?:pub(?:\([^)]*\))?\s+)?(?:struct|enum|union)\s+(\w+)")
ITEM = re.compile(
    r"(?m)^[ \t]*(?:(impl)\b|(?:pub(?:\([^)]*\))?\s+)?(?:unsafe\s+)?(?:trait|mod)\s)([^{;]*)\{"
    r"|\bfn\s+(\w+)\s*[(<]"
)
CLAUSE = re.compile(r"\b(requires|ensures|ghost)\b")
# The attribute of functions that call one another.
CYCLE = re.compile(r"#\[cycle\((\w+)\)\]")
# What makes a function no plain one: a word before it.
NOT_PLAIN = re.compile(r"\b(?:const|unsafe|extern)\b[^\n]*\Z")
# What stands before `fn`: lines of attributes, and what is on its own line.
BEFORE = re.compile(r"(?:^[ \t]*#\[[^\n]*\]\n)*[^\n]*\Z", re.M)
# The body of a function that is taken by its contract.
NO_BODY = "{ unreachable!() }"
# A call, by the last word of its path.
CALL = re.compile(r"(\w+)\s*(?:::<[^>]*>)?\(")


@dataclass
class Function:
    path: str  # below the crate, as rattle prints it: module::Type::name
    start: int
    body: int
    end: int
    cycle: str = ""  # the name of the cycle of calls that it is in


class Sources:
    """The functions of the files of a crate's src/, by their paths below the crate."""

    def __init__(self, files):
        self.files, self.types, self.traits, self.functions = files, set(), {}, {}
        for file, text in self.files.items():
            self.types |= {(self.module(file), kind) for kind in TYPE.findall(text)}
        for file, text in self.files.items():
            self.functions.update((it.path, (file, it)) for it in self.found(file, text))

    def module(self, file):
        return re.sub(r"(/|\A)(lib|main|mod)\Z", "", file[len("src/") : -len(".rt")]).replace("/", "::")

    def found(self, file, text):
        """Returns the functions of a file, but those inside of functions."""
        plain = NO_CODE.sub(lambda it: re.sub(r"[^\n]", " ", it[0]), text)
        found, blocks, end = [], [], 0
        for it in ITEM.finditer(plain):
            blocks = [block for block in blocks if block[0] > it.start()]
            if it.start() < end:
                continue
            if it[3]:
                body = body_at(plain, it.end() - 1)
                if body:
                    end = closing(plain, body, "{}")
                    path = "::".join(filter(None, [blocks[-1][1] if blocks else self.module(file), it[3]]))
                    cycle = CYCLE.findall(plain[found[-1].end if found else 0 : it.start()])
                    found.append(Function(path, it.start(), body, end, *cycle[-1:]))
            else:
                name = self.impl(file, it[2]) if it[1] else (self.module(file), re.match(r"\w*", it[2])[0])
                blocks.append((closing(plain, it.end() - 1, "{}"), "::".join(filter(None, name))))
        return found

    def impl(self, file, head):
        """Returns the module and the name under which rattle has the functions of an impl."""
        here, head = self.module(file), head.partition(" where ")[0].strip()
        if head.startswith("<"):
            head = head[closing(head, 0, "<>") :]
        trait, _, kind = head.rpartition(" for ")
        kind = re.match(r"(?:&\s*)?(?:'\w+\s*)?(?:mut\s+)?(?:\w+\s*::\s*)*(\w*)", kind.strip())[1]
        if trait and trait.strip() != "Drop":
            name, _, given = trait.strip().partition("<")
            given = re.findall(r"\w{2,}", re.sub(r"'\w+|\w+\s*::", "", given.partition("<")[0]))
            name = "".join([kind, name.split("::")[-1].strip(), *given])
            self.traits["::".join(filter(None, [here, name]))] = kind
            return here, name
        homes = [module for module, name in self.types if name == kind]
        return here if here in homes else min(homes, default=here), kind

    def owner(self, path):
        """Returns the function that a closure stands in, and any other path as it is."""
        head, inside, tail = path.partition("::fn::")
        while inside and f"{head}::{tail}" not in self.functions and "::" in tail:
            tail = tail.rpartition("::")[0]
        return f"{head}::{tail}" if inside else path

    def proved_at(self, path):
        """Returns the functions whose proof lies at a path: of module::+name those of a cycle of calls."""
        head, plus, name = path.rpartition("+")
        if not plus:
            return [self.owner(path)] if self.owner(path) in self.functions else []
        inside = [it for it, (_, one) in self.functions.items() if it.startswith(head) and one.cycle == name]
        return inside or [it for it in [head + name] if it in self.functions]

    def has_goal(self, path, goal):
        """Whether a goal is the function's own: those of a cycle's functions begin with their names."""
        cycle = self.functions[path][1].cycle
        others = [it.rpartition("::")[2] for it, (_, one) in self.functions.items() if cycle and one.cycle == cycle]
        owners = [it for it in others if goal.startswith(f"{it}-")]
        return not others or path.rpartition("::")[2] == max(owners, key=len, default="")

    def kinds_reaching(self, paths):
        """Returns the types of whose traits a function is one of these or calls one: who names such a type may reach
        them with no call of theirs in sight."""
        names = {it.rpartition("::")[2] for it in paths}
        homes = {it: it.rpartition("::")[0] for it in self.functions}
        reach = [it for it, home in homes.items() if home in self.traits and (it in paths or names & self.called_by(it))]
        return {self.traits[homes[it]] for it in reach}

    def called_by(self, path):
        """Returns the names of all that a function may call, and of what these may call."""
        seen, left = set(), [path]
        while left:
            file, it = self.functions[left.pop()]
            more = {*CALL.findall(self.files[file][it.body : it.end])} - seen
            seen |= more
            left += [other for other in self.functions if other.rpartition("::")[2] in more]
        return seen

    def changed(self, texts):
        """Returns the new text of each function that an edit changes, or why it is no edit of bodies alone."""
        new = {}
        for file, text in texts.items():
            if file not in self.files:
                return {}, f"it edits {file}: a wrong body stands in src/"
            old, was, now = self.files[file], self.found(file, self.files[file]), self.found(file, text)
            if [it.path for it in was] != [it.path for it in now]:
                return {}, "it adds, removes or renames a function, or its braces do not match"
            if outside(old, was) != outside(text, now):
                return {}, "it changes more than functions"
            for a, b in zip(was, now):
                heads = {re.sub(r"\bmut ", "", it) for it in (old[a.start : a.body], text[b.start : b.body])}
                if len(heads) > 1:
                    return {}, f"it changes the signature or a clause of {a.path}"
                if old[a.body : a.end] != text[b.body : b.end]:
                    new[a.path] = text[b.start : b.end]
        return new, "" if new else "it changes no body"

    def is_plain(self, file, text, it):
        """Whether a function can be taken by its contract: one of a module or a type's own."""
        home, _, name = it.path.rpartition("::")
        is_own = home == self.module(file) or home in {"::".join(filter(None, kind)) for kind in self.types}
        is_special = it.cycle or name in ("drop", "main") or NOT_PLAIN.search(text[: it.start])
        return is_own and home not in self.traits and not is_special

    def may_have_twin(self, path):
        file, it = self.functions.get(path, ("", None))
        return bool(it) and self.is_plain(file, self.files[file], it)

    def with_twins(self, twins):
        """Returns these sources where functions that may have one have twins, after them: pairs of their paths."""
        files = {**self.files}
        for path, twin in sorted(twins, key=lambda it: -self.functions[it[0]][1].end):
            file, it = self.functions[path]
            text = self.files[file]
            made = BEFORE.search(text[: it.start])[0] + renamed(text[it.start : it.end], twin)
            files[file] = f"{files[file][: it.end]}\n\n{made}{files[file][it.end :]}"
        return Sources(files)

    def by_contract(self, edits, kept):
        """Returns the texts of all files with the edits made, and the functions other than the kept ones that have no
        body there any more, being plain."""
        texts, taken = {**self.files, **self.with_edits(edits)}, []
        for file, text in texts.items():
            for it in sorted(self.found(file, text), key=lambda it: -it.start):
                if it.path not in kept and self.is_plain(file, text, it):
                    texts[file] = texts[file][: it.body] + NO_BODY + texts[file][it.end :]
                    taken.append(it.path)
        return texts, taken

    def with_edits(self, edits):
        """Returns the texts of the files that the edits change."""
        new, texts = {path: text for it in edits for path, text in it.changed.items()}, {}
        for path in sorted(new, key=lambda it: -self.functions[it][1].start):
            file, it = self.functions[path]
            text = texts.get(file, self.files[file])
            texts[file] = text[: it.start] + new[path] + text[it.end :]
        return texts


def renamed(text, path):
    """Returns the text of a function, from its `fn`, with the name of this path."""
    return re.sub(r"\Afn\s+\w+", f"fn {path.rpartition('::')[2]}", text)


def closing(text, at, pair):
    """Returns where the bracket there ends, just past its partner."""
    depth = 0
    for it in re.finditer(f"[{re.escape(pair)}]", text[at:]):
        depth += 1 if it[0] == pair[0] else -1
        if not depth:
            return at + it.end()
    return len(text)


def body_at(text, at):
    """Returns where a function's body begins, if it has one: at the first brace past its name that is no clause's."""
    while True:
        it = re.search(r"[(\[{;]", text[at:])
        if not it or it[0] == ";":
            return None
        here = at + it.start()
        if it[0] == "{" and not CLAUSE.search(text[at:here]):
            return here
        at = closing(text, here, {"(": "()", "[": "[]", "{": "{}"}[it[0]])


def outside(text, functions):
    ends = [0, *[it.end for it in functions]]
    return [text[a:b] for a, b in zip(ends, [*[it.start for it in functions], len(text)])]
