"""Reads rule files, catalogues, queries and derivations, and writes them as terms of antt.

A case of a type that holds itself is a pattern of star_model, as f.Add; one without such parts is the plain variant, as
formula.Number. It takes texts for granted: what is wrong in one ends the script. It shares no code with the readers that are proved.
"""
import re

TOKEN = re.compile(r"[A-Za-z_]\w*|\d+|'(?:[^']|'')*'|<=|<>|>=|[-()\[\]{},;.|=<>+*/]")

VARIABLES = {
    word.lower(): word
    for word in "Cost1 Rescan1 Card1 Width1 Cost2 Rescan2 Card2 Width2 Card Width Rows Pages Preds Cpu Net One Distinct1 Rows1 Distinct2 Rows2".split()
}
# each flavour, with the number of its inputs
FLAVOURS = {
    "ACCESS_HEAP": ("AccessHeap", 0),
    "ACCESS_INDEX": ("AccessIndex", 0),
    "GET": ("Get", 1),
    "FILTER": ("Filter", 1),
    "SORT": ("Sort", 1),
    "STORE": ("Store", 1),
    "SHIP": ("Ship", 1),
    "PROBE": ("Probe", 1),
    "JOIN_NL": ("JoinNl", 2),
    "JOIN_MERGE": ("JoinMerge", 2),
    "JOIN_HASH": ("JoinHash", 2),
    "INTERSECT": ("Intersect", 2),
}
# classes of predicates
CLASSES = {"EQ_CONST": "EqConst", "EQ_COLUMN": "EqColumn", "NE": "Ne", "LESS": "Less"}
TESTS = {"<": "Lt", "<=": "Le", "=": "Eq"}
COMPARISONS = {"=": "Eq", "<>": "Ne", "<": "Lt", "<=": "Le", ">": "Gt", ">=": "Ge"}
FUNCTIONS = "tables inside crossing between equalities indexable columns keys home union minus meet".split()
WORDS = {"all": "All", "none": "NoPreds", "nocols": "NoCols", "orderby": "OrderBy", "querysite": "QuerySite"}
NO_PLACE = 255


def tokens(text):
    return TOKEN.findall(re.sub(r"#[^\n]*", "", text))


def list_of(items):
    return f"({' ∷ '.join([*items, '[]'])})" if items else "[]"


def codes(name):
    return f'codes "{name}"'


def unquoted(text):
    """The bytes of a text, with its quotes undoubled."""
    return text[1:-1].replace("''", "'")


class Reader:
    """The tokens of a text, from the front."""

    def __init__(self, text):
        self.tokens, self.at = tokens(text), 0

    def peek(self):
        return self.tokens[self.at] if self.at < len(self.tokens) else None

    def next(self):
        self.at += 1
        return self.tokens[self.at - 1]

    def expect(self, *words):
        for word in words:
            found = self.next()
            assert found == word, f"{word} wanted, {found} found: {' '.join(self.tokens[max(0, self.at - 12):self.at + 4])}"

    def take(self, word):
        """Whether this token is next; it is taken then."""
        found = self.peek() == word
        self.at += found
        return found

    def set(self):
        """A set of numbers from 1, as the number whose bits they are."""
        self.expect("{")
        members = 0 if self.peek() == "}" else sum(1 << (int(number) - 1) for number in self.several(self.next))
        self.expect("}")
        return members

    def several(self, one, between=","):
        items = [one()]
        while self.take(between):
            items.append(one())
        return items


class RuleReader(Reader):
    # ---- formulas

    def formula(self):
        if self.take("if"):
            left, test, right = self.sum(), TESTS[self.next()], self.sum()
            self.expect("then")
            yes = self.formula()
            self.expect("else")
            return f"(f.If test.{test} {left} {right} {yes} {self.formula()})"
        return self.sum()

    def chain(self, part, operators):
        term = part()
        while self.peek() in operators:
            operator = operators[self.next()]
            term = f"(f.{operator} {term} {part()})"
        return term

    def sum(self):
        return self.chain(self.product, {"+": "Add", "-": "Sub"})

    def product(self):
        return self.chain(self.factor, {"*": "Mul", "/": "Div"})

    def factor(self):
        word = self.next()
        if word == "(":
            term = self.formula()
            self.expect(")")
            return term
        if word in ("min", "max"):
            self.expect("(")
            left = self.formula()
            self.expect(",")
            right = self.formula()
            self.expect(")")
            return f"(f.{word.title()} {left} {right})"
        return f"(formula.Number {word})" if word.isdigit() else f"(formula.Variable var.{VARIABLES[word]})"

    # ---- values, conditions and plans, where these names have places

    def arguments(self, names):
        self.expect("(")
        values = self.several(lambda: self.value(names))
        self.expect(")")
        return values

    def value(self, names):
        word = self.next()
        if word in FUNCTIONS:
            term = f"(v.{word.title()} {' '.join(self.arguments(names))})"
        elif word in WORDS:
            term = f"value.{WORDS[word]}"
        else:
            place = names.index(word) if word in names else NO_PLACE
            term = f"(value.Variable ({codes(word)}) {place})"
        while self.take("["):
            what = self.next()
            term = f"(v.WithTemp {term})" if what == "temp" else f"(v.With{what.title()} {term} {self.value(names)})"
            self.expect("]")
        return term

    def condition(self, names):
        word = self.next()
        if word in ("not", "and", "or"):
            self.expect("(")
            parts = self.several(lambda: self.condition(names))
            self.expect(")")
        else:
            return f"(condition.{word.title()} {' '.join(self.arguments(names))})"
        return f"(c.{word.title()} {' '.join(parts)})"

    def plan(self, names):
        word = self.next()
        if word == "Glue":
            return f"(plan.Glue {' '.join(self.arguments(names))})"
        if word not in FLAVOURS:
            return f"(plan.Reference ({codes(word)}) {list_of(self.arguments(names))})"
        flavour, count = FLAVOURS[word]
        self.expect("(")
        inputs, values = [], []
        while not self.take(")"):
            if inputs or values:
                self.expect(",")
            if len(inputs) < count:
                inputs.append(self.plan(names))
            else:
                values.append(self.value(names))
        return f"({' '.join([('plan.Leaf', 'e.Unary', 'e.Binary')[count], f'flavour.{flavour}', list_of(values), *inputs])})"

    # ---- statements

    def for_all(self, names):
        name = self.next()
        self.expect("in")
        return name, f"record {{ name = {codes(name)}; range = {self.range(names)} }}"

    def alternative(self, names):
        names, ranges = list(names), []
        while self.take("for"):
            name, term = self.for_all(names)
            names.append(name)
            ranges.append(term)
        condition = f"Some {self.condition(names)}" if self.take("when") else "None"
        self.expect("give")
        return f"record {{ ranges = {list_of(ranges)}; condition = {condition}; body = {self.plan(names)} }}"

    def star(self, statement):
        name = self.next()
        self.expect("(")
        parameters = self.several(lambda: (self.next(), self.next()))
        self.expect(")", "=")
        names = [parameter for parameter, _ in parameters]
        alternatives = self.several(lambda: self.alternative(names), "|")
        self.expect(";")
        kinds = [f"record {{ name = {codes(parameter)}; kind = kind.{kind.title()} }}" for parameter, kind in parameters]
        return f"record {{ statement = {statement}; name = {codes(name)}; params = {list_of(kinds)}; alternatives = {list_of(alternatives)} }}"

    def range(self, names):
        what = self.next()
        of = "" if what == "sites" else f" {self.arguments(names)[0]}"
        return f"range.{what.title()}{of}"

    def selectivity(self, statement):
        of_class = CLASSES[self.next()]
        self.expect("=")
        num = self.formula()
        self.expect("per")
        den = self.formula()
        self.expect(";")
        return f"record {{ statement = {statement}; class = class.{of_class}; num = {num}; den = {den} }}"

    def formula_statement(self, statement, which):
        flavour = FLAVOURS[self.next()][0]
        self.expect("=")
        formula = self.formula()
        self.expect(";")
        return f"record {{ statement = {statement}; flavour = flavour.{flavour}; which = which.{which}; formula = {formula} }}"


def version(reader):
    """The version of a rule file, whose statement is taken where there is one."""
    if reader.tokens[:3] != ["version", "2", ";"]:
        return 1
    reader.at = 3
    return 2


def rules(text):
    """The version, the selectivities, the formulas and the STARs of a rule file."""
    reader, selects, formulas, stars = RuleReader(text), [], [], []
    of_version = version(reader)
    statement = of_version - 1
    while reader.peek():
        statement += 1
        word = reader.next()
        if word == "star":
            stars.append(reader.star(statement))
        elif word == "selectivity":
            selects.append(reader.selectivity(statement))
        else:
            formulas.append(reader.formula_statement(statement, word.title()))
    return of_version, selects, formulas, stars


class Names:
    """The names of a catalogue, by which a query finds their positions, and the distinct values of its columns."""

    def __init__(self):
        self.sites, self.tables, self.columns, self.indexes, self.distinct = [], [], {}, [], {}


def catalogue(text):
    """A catalogue, and its names."""
    reader, names = Reader(text), Names()
    sites, tables, indexes = [], [], []

    def column(table):
        name, kind = reader.next(), reader.next()
        reader.expect("width")
        width = reader.next()
        reader.expect("distinct")
        names.columns[table].append(name)
        names.distinct[table, name] = int(reader.next())
        return f"record {{ name = {codes(name)}; kind = type.{kind.title()}; width = {width}; distinct = {names.distinct[table, name]} }}"

    while reader.peek():
        what, name = reader.next(), reader.next()
        if what == "site":
            reader.expect("cpu")
            cpu = reader.next()
            reader.expect("net")
            names.sites.append(name)
            sites.append(f"record {{ name = {codes(name)}; cpu = {cpu}; net = {reader.next()} }}")
        elif what == "table":
            numbers = []
            reader.expect("at")
            site = names.sites.index(reader.next())
            for word in ("rows", "pages", "file"):
                reader.expect(word)
                numbers.append(reader.next())
            rows, pages, file = numbers
            names.tables.append(name)
            names.columns[name] = []
            reader.expect("(")
            columns = reader.several(lambda: column(name))
            reader.expect(")")
            tables.append(
                f"record {{ name = {codes(name)}; site = record {{ 0 = {site} }}; rows = {rows}; pages = {pages};"
                f" file = {codes(unquoted(file))}; columns = {list_of(columns)} }}"
            )
        else:
            names.indexes.append(name)
            reader.expect("on")
            table = reader.next()
            reader.expect("(")
            columns = reader.several(lambda: str(names.columns[table].index(reader.next())))
            reader.expect(")", "pages")
            indexes.append(
                f"record {{ name = {codes(name)}; table = {names.tables.index(table)}; columns = {list_of(columns)}; pages = {reader.next()} }}"
            )
        reader.expect(";")
    return f"record {{\n  sites = {list_of(sites)};\n  tables = {list_of(tables)};\n  indexes = {list_of(indexes)};\n}}", names


class QueryReader(Reader):
    """Reads what names the columns and sites of a query, once its quantifiers are known."""

    def __init__(self, text, names, quantifiers=()):
        super().__init__(text)
        self.names, self.quantifiers = names, list(quantifiers)

    def column(self):
        quantifier = self.next()
        self.expect(".")
        number = [name for name, _ in self.quantifiers].index(quantifier)
        table, name = self.quantifiers[number][1], self.next()
        self.distinct = self.names.distinct[table, name]
        return f"record {{ quant = record {{ 0 = {number} }}; column = {self.names.columns[table].index(name)} }}"

    def columns(self):
        self.expect("[")
        columns = [] if self.peek() == "]" else self.several(self.column)
        self.expect("]")
        return list_of(columns)

    def site(self):
        return f"record {{ 0 = {self.names.sites.index(self.next())} }}"

    def rule_value(self):
        """A value of the rule language, as the tables of this folder write it."""
        kind = self.next()
        if kind == "stream":
            tables = self.set()
            order = self.columns() if self.take("order") else "[]"
            site = f"Some ({self.site()})" if self.take("site") else "None"
            temp = "true" if self.take("temp") else "false"
            path = self.columns() if self.take("path") else "[]"
            return f"is.Stream (record {{ tables = {tables}; require = record {{ order = {order}; site = {site}; temp = {temp}; path = {path} }} }})"
        if kind in ("quants", "preds"):
            return f"is.{kind.title()} {self.set()}"
        if kind == "cols":
            return f"is.Cols {self.columns()}"
        if kind == "site":
            return f"is.Site ({self.site()})"
        assert kind == "index", kind
        return f"is.Index {int(self.next()) - 1}"

    def quantifier(self):
        table = self.next()
        name = self.next() if self.peek() not in ("where", "order", "at", ",", ";") else table
        self.quantifiers.append((name, table))

    def operand(self):
        word = self.peek()
        if word[0] == "'":
            return f"operand.Constant (constant.Text ({codes(unquoted(self.next()))}))"
        if word == "-":
            self.next()
            return f"operand.Constant (constant.Int (neg_ℤ (pos {self.next()})))"
        if word.isdigit():
            return f"operand.Constant (constant.Int (pos {self.next()}))"
        return f"operand.Column ({self.column()})"

    def predicate(self):
        """A predicate with the selectivity that it has where no rule file gives one."""
        left, distinct, comparison = self.column(), self.distinct, COMPARISONS[self.next()]
        self.distinct = 1
        right = self.operand()
        den = max(1, distinct, self.distinct) if comparison == "Eq" else 1 if comparison == "Ne" else 3
        return f"record {{ left = {left}; cmp = cmp.{comparison}; right = {right}; num = 1; den = {den} }}"

    def query(self, catalogue_name):
        self.expect("select")
        start = self.at
        self.at = self.tokens.index("from") + 1
        self.several(self.quantifier)
        end, self.at = self.at, start
        select = self.several(self.column)
        self.at = end
        preds = self.several(self.predicate, "and") if self.take("where") else []
        order = []
        if self.take("order"):
            self.expect("by")
            order = self.several(self.column)
        site = f"Some ({self.site()})" if self.take("at") else "None"
        self.expect(";")
        quantifiers = [f"record {{ name = {codes(name)}; table = {self.names.tables.index(table)} }}" for name, table in self.quantifiers]
        return (
            f"record {{\n  catalogue = {catalogue_name};\n  quants = {list_of(quantifiers)};\n  select = {list_of(select)};\n"
            f"  preds = {list_of(preds)};\n  order = {list_of(order)};\n  site = {site};\n}}"
        )


def query(text, catalogue_name, names):
    """A query over the catalogue of this name, which has these names; and its quantifiers with their tables."""
    reader = QueryReader(text, names)
    return reader.query(catalogue_name), reader.quantifiers


class VectorReader(QueryReader):
    """Reads vectors and operators over them, as the table of operators writes them."""

    def __init__(self, text, names, quantifiers, vectors):
        super().__init__(text, names, quantifiers)
        self.vectors = vectors

    def yes(self):
        return "true" if self.next() == "yes" else "false"

    def column_set(self):
        """A list of columns as a set: for each of 12 quantifiers the mask of its columns."""
        masks = [0] * 12
        for term in re.findall(r"0 = (\d+) }; column = (\d+)", self.columns()):
            masks[int(term[0])] |= 1 << int(term[1])
        return list_of([str(mask) for mask in masks])

    def fields(self):
        readers = {
            "tables": self.set,
            "cols": self.column_set,
            "preds": self.set,
            "order": self.columns,
            "site": self.site,
            "temp": self.yes,
            "path": self.columns,
            "card": self.next,
            "cost": self.next,
            "rescan": self.next,
        }
        fields = []
        while self.peek() in readers:
            field = self.next()
            fields.append(f"{field} = {readers[field]()}")
        return "{ " + "; ".join(fields) + " }"

    def vector(self):
        """A vector, or one that has a name, with other fields or not."""
        if self.peek() == "tables":
            return f"record {self.fields()}"
        name = self.vectors[self.next()]
        return f"(record {name} {self.fields()})" if self.take("with") else name

    def optional(self):
        return "None" if self.take("none") else f"Some ({self.vector()})"

    def requirement(self):
        self.expect("order")
        order = self.columns()
        self.expect("site")
        site = "None" if self.take("none") else f"Some ({self.site()})"
        self.expect("temp")
        temp = self.yes()
        self.expect("path")
        return f"record {{ order = {order}; site = {site}; temp = {temp}; path = {self.columns()} }}"

    def chain(self):
        words = []
        while self.peek() != ")":
            words.append(f"glue.{self.next().title()}")
        return list_of(words)

    def index(self):
        return str(self.names.indexes.index(self.next()))

    def operator(self):
        """An operator with its arguments, and its inputs."""
        flavour, count = FLAVOURS[self.next()]
        arguments = {
            "AccessHeap": [self.set, self.set],
            "AccessIndex": [self.set, self.index, self.set],
            "Get": [self.set, self.set],
            "Sort": [self.columns],
            "Store": [self.columns],
            "Ship": [lambda: f"({self.site()})"],
            "Probe": [self.columns, self.set],
            "JoinMerge": [self.set, self.set],
            "JoinHash": [self.set, self.set],
            "Intersect": [],
        }.get(flavour, [self.set])
        parts = self.parts([self.vector] * count + arguments)
        return f"({' '.join([f'op.{flavour}', *parts[count:]])})", list_of(parts[:count])

    def parts(self, readers):
        """What stands in brackets, between commas."""
        self.expect("(")
        parts = []
        for reader in readers:
            if parts:
                self.expect(",")
            parts.append(str(reader()))
        self.expect(")")
        return parts


class DerivationReader(Reader):
    def rest_of_statement(self):
        words = []
        while not self.take(";"):
            words.append(self.next())
        return words

    def node(self):
        word = self.next()
        if word == "glue":
            chain = list_of([f"glue.{operator.title()}" for operator in self.rest_of_statement()])
            return f"(d.Glue {chain} {self.node()})"
        if word == "goal":
            tables = self.set()
            self.expect("pushed")
            goal = f"(record {{ tables = {tables}; pushed = {self.set()} }})"
            split = f"(Some ({self.set()}, {self.set()}))" if self.take("split") else "None"
            self.expect(";")
            return f"(d.Goal {goal} {split} {self.node()})"
        if word == "ref":
            star, alternative = self.next(), self.next()
            return f"(d.Reference ({codes(star)}) {alternative} {list_of(self.rest_of_statement())} {self.node()})"
        flavour, count = FLAVOURS[word]
        self.expect(";")
        inputs = [self.node() for _ in range(count)]
        return f"({' '.join([('derivation.Leaf', 'd.Unary', 'd.Binary')[count], f'flavour.{flavour}', *inputs])})"


def derivation(text):
    reader = DerivationReader(text)
    term = reader.node()
    assert reader.peek() is None
    return term


def goal(text):
    """The sets of the goal that a text begins with."""
    reader = DerivationReader(text)
    reader.expect("goal")
    tables = reader.set()
    reader.expect("pushed")
    return tables, reader.set()
