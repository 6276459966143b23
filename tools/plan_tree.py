"""Reads what `plan` prints as a tree of operators, with what the rule file, the catalogue and the query
say of each.

It takes texts for granted that `verify` accepts; where they don't fit together, it raises Unfit.
"""
import dataclasses
import re

TOKEN = re.compile(
    r"(?P<skip>#[^\n]*|\s+)|[A-Za-z_]\w*|\d+|'(?:[^']|'')*'|<=|<>|>=|[-()\[\]{},;.|=<>+*/]", re.ASCII
)
INPUTS = dict.fromkeys("ACCESS_HEAP ACCESS_INDEX".split(), 0)
INPUTS |= dict.fromkeys("GET FILTER SORT STORE SHIP PROBE".split(), 1)
INPUTS |= dict.fromkeys("JOIN_NL JOIN_MERGE JOIN_HASH".split(), 2)


class Unfit(Exception):
    """The texts don't fit together: what was wanted, and what stands there."""


@dataclasses.dataclass
class Token:
    word: str
    line: int


@dataclasses.dataclass
class Node:
    """An operator of a plan, over the plans of its inputs."""

    operator: str
    origin: str
    """The STARs that were followed to it, or what had Glue add it."""
    rule: str
    """How it stands in the rule file, after the number of its line there."""
    goal: str
    """The goal whose plan it completes, or nothing."""
    inputs: list


@dataclasses.dataclass
class Expression:
    """A plan as a rule writes it: an operator with the plans of its inputs, a reference or Glue."""

    word: str
    text: str
    line: int
    inputs: list


@dataclasses.dataclass
class Alternative:
    for_alls: list
    """Names with the words of their ranges."""
    plan: Expression


# ---- tokens and their layout


def tokens(text):
    found, line = [], 1
    for match in TOKEN.finditer(text):
        if not match["skip"]:
            found.append(Token(match[0], line))
        line += match[0].count("\n")
    return found


def laid_out(part):
    """Tokens in canonical layout."""
    text, before = "", ""
    for token in part:
        follows_word = bool(re.match(r"\w", before[-1:]))
        tight = token.word in ",;)]}." or before in ("", *"([{.") or (token.word in "([" and follows_word)
        text += token.word if tight else f" {token.word}"
        before = token.word
    return text


def split_at(part, word):
    """Slices between the tokens of this word that stand outside of all brackets."""
    slices, depth = [[]], 0
    for token in part:
        depth += (token.word in "([{") - (token.word in ")]}")
        if token.word == word and depth == 0:
            slices.append([])
        else:
            slices[-1].append(token)
    return slices


def statements(text):
    return [part for part in split_at(tokens(text), ";") if part]


# ---- rule files


def expression(part):
    head = part[0]
    arguments = split_at(part[2:-1], ",")
    inputs = [expression(argument) for argument in arguments[: INPUTS.get(head.word, 0)]]
    return Expression(head.word, laid_out(part), head.line, inputs)


def alternative(part):
    words = [token.word for token in part]
    for_alls = [(words[at + 1], words[at + 3]) for at, word in enumerate(words) if word == "for"]
    return Alternative(for_alls, expression(part[words.index("give") + 1 :]))


def stars(text):
    """The alternatives of each STAR of a rule file, by its name."""
    found = {}
    for part in statements(text):
        if part[0].word == "star":
            equals = [token.word for token in part].index("=")
            alternatives = split_at(part[equals + 1 :], "|")
            found[part[1].word] = [alternative(piece) for piece in alternatives]
    return found


# ---- names of catalogues and queries


@dataclasses.dataclass
class Names:
    """What the numbers of a derivation stand for, by the ranges of the rule language."""

    sites: list
    indexes: list
    members: list
    """Quantifiers."""
    each: list
    """Predicates, as the query writes them."""


def names(catalogue, query):
    defined = [(part[0].word, part[1].word) for part in statements(catalogue)]
    sites = [name for kind, name in defined if kind == "site"]
    indexes = [name for kind, name in defined if kind == "index"]
    words = tokens(query)
    quantifiers = [item[-1].word for item in split_at(clause(words, "from"), ",")]
    where = clause(words, "where")
    predicates = [laid_out(predicate) for predicate in split_at(where, "and")] if where else []
    return Names(sites, indexes, quantifiers, predicates)


def clause(query, word):
    """The tokens of a query after this word, up to the next clause."""
    # A column may be named like a clause, but stands after a dot then.
    heads = [
        at
        for at, (before, token) in enumerate(zip([Token(";", 0), *query], query))
        if token.word in ("from", "where", "order", "at", ";") and before.word != "."
    ]
    for start, end in zip(heads, [*heads[1:], len(query)]):
        if query[start].word == word:
            return query[start + 1 : end]
    return []


# ---- derivations


class PlanReader:
    """The statements of a derivation from the first on, over the STARs and names that they speak of."""

    def __init__(self, derivation, rules, all_names):
        self.statements = iter(statements(derivation))
        self.stars, self.names = stars(rules), all_names

    def next(self, wanted):
        """The tokens of the next statement, which begins with this word, without that word."""
        part = next(self.statements, None)
        if part is None or part[0].word != wanted:
            found = laid_out(part) if part else "the end"
            raise Unfit(f"{wanted} is wanted, and the plan has {found}")
        return [token.word for token in part[1:]]

    def glue(self, asked, rule):
        """The plan of a Glue: what asked for it, and how it stands in the rule file."""
        added = self.next("glue")
        goal, joins = self.goal()
        node = self.reference("JoinRoot" if joins else "AccessRoot", [])
        node.goal = goal
        for word in added:
            node = Node(word.upper(), f"added by {asked}", rule, "", [node])
        return node

    def goal(self):
        """What a goal is of, and whether it has several quantifiers."""
        sets = re.findall(r"{([^}]*)}", " ".join(self.next("goal")))
        quantifiers, pushed, *split = [re.findall(r"\d+", part) for part in sets]
        parts = [[self.member("members", number) for number in part] for part in split or [quantifiers]]
        predicates = [self.member("each", number) for number in pushed]
        of = " and ".join(", ".join(part) for part in parts)
        return f"of {of}" + (f", with {' and '.join(predicates)} pushed in" if pushed else ""), bool(split)

    def reference(self, star, followed):
        name, number, *values = self.next("ref")
        if name != star or int(number) > len(self.stars.get(star, [])):
            raise Unfit(f"an alternative of {star} is wanted, and the plan has {name} {number}")
        chosen = self.stars[star][int(number) - 1]
        pairs = zip(chosen.for_alls, values)
        bound = [f"{name} = {self.member(which, value)}" for (name, which), value in pairs]
        step = f"{star} {number}" + (f" ({', '.join(bound)})" if bound else "")
        return self.plan(chosen.plan, [*followed, step])

    def member(self, which, number):
        members = getattr(self.names, which)
        if int(number) > len(members):
            raise Unfit(f"the plan has number {number} of {len(members)} {which}")
        return members[int(number) - 1]

    def plan(self, written, followed):
        if written.word == "Glue":
            return self.glue("Glue", f"line {written.line}: {written.text}")
        if written.word not in INPUTS:
            return self.reference(written.word, followed)
        self.next(written.word)
        inputs = [self.plan(part, []) for part in written.inputs]
        return Node(written.word, " > ".join(followed), f"line {written.line}: {written.text}", "", inputs)


def read_plan(printed, rules, catalogue, query):
    """The line of numbers that a printed plan begins with, or nothing, and its topmost operator."""
    numbers = re.search(r"^# (cost \d+ rescan \d+ card \d+)$", printed, re.MULTILINE)
    reader = PlanReader(printed, rules, names(catalogue, query))
    return numbers[1] if numbers else "", reader.glue("the query", "")
