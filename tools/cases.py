"""Writes the cases of the recursive types of star_model, run from the top of the repository.

For each recursive type `specs/TYPECases.antt`: patterns that show a part in a `Boxed` as the part itself. For each file of
`specs/` with definitions by these cases a file of equations: for each variant, what a definition is of the value that code
makes, and a ruleset of them. Definitions stay where they are; run this again after one of them, or a type, has changed.
"""

import re
import sys
from pathlib import Path

CRATE = Path("crates/star_model")
MODULE = "Rattle.star_model.specs"

# recursive type: its module in src/, and its file of patterns
TYPES = {
    "Formula": ("formula", "FormulaCases"),
    "ValueExpr": ("rules", "ValueCases"),
    "Condition": ("rules", "ConditionCases"),
    "PlanExpr": ("rules", "PlanExprCases"),
    "Plan": ("plans", "PlanCases"),
    "Deriv": ("derivations", "DerivCases"),
}

# file of definitions: each definition with the type that it goes by, and the ruleset of its equations
DEFINITIONS = {
    "Formulas": [("value", "Formula", "value_cases")],
    "Monotone": [
        ("is_free", "Formula", "is_free_cases"),
        ("passes", "Formula", "passes_cases"),
        ("nodes", "Formula", "nodes_cases"),
        ("offends", "Formula", "offends_cases"),
    ],
    "Meaning": [("meaning", "ValueExpr", "meaning_cases"), ("holds", "Condition", "holds_cases")],
    "Kinds": [("kind_of", "ValueExpr", "kind_of_cases"), ("is_kinded", "Condition", "is_kinded_cases")],
    "Plans": [("vector", "Plan", "vector_cases")],
    "Expected": [
        ("leaf_of", "PlanExpr", "leaf_of_cases"),
        ("unary_of", "PlanExpr", "unary_of_cases"),
        ("binary_of", "PlanExpr", "binary_of_cases"),
    ],
    "Derivations": [("plan_of", "Deriv", "plan_of_cases"), ("is_valid", "Deriv", "is_valid_cases")],
    "Judging": [
        ("node_count", "Deriv", "node_count_cases"),
        ("judge", "Deriv", "judge_cases"),
    ],
    "Accepted": [
        ("values_in", "PlanExpr", "values_in_cases"),
        ("references_in", "PlanExpr", "references_in_cases"),
        ("operators_in", "PlanExpr", "operators_in_cases"),
        ("glues_in", "PlanExpr", "glues_in_cases"),
        ("values_of_condition", "Condition", "values_of_condition_cases"),
        ("variables_in", "ValueExpr", "variables_in_cases"),
    ],
}

# what contracts see of the parts of the variants, and where that is imported from
SEEN = {
    "u8": ("ℕ", None),
    "u32": ("ℕ", None),
    "u64": ("ℕ", None),
    "Name": ("List ℕ", None),
    "Chain": ("List GlueOp", "declared.plans.GlueOp.{GlueOp}"),
    "ForAllValues": ("List ℕ", None),
    "Option<(QuantSet, QuantSet)>": ("Option (ℕ × ℕ)", None),
    "Goal": ("goal.Goal", "declared.plans.Goal as goal"),
    "Test": ("Test", "declared.formula.Test.{Test}"),
    "Var": ("Var", "declared.formula.Var.{Var}"),
    "Flavour": ("Flavour", "declared.rules.Flavour.{Flavour}"),
    "Op": ("Op", "declared.plans.Op.{Op}"),
    "ValueExpr": ("ValueExpr", "declared.rules.ValueExpr.{ValueExpr}"),
    "List<ValueExpr>": ("List ValueExpr", "declared.rules.ValueExpr.{ValueExpr}"),
}

HEAD = "-- Written by tools/cases.py.\n"

# words that nearly every file of equations wants
BASIC = ("◌≡◌", "refl", "ℕ", "List", "[]", "Option")


def split_at(text, mark):
    """The pieces of the text between the marks that stand in no brackets."""
    pieces, depth, piece = [], 0, ""
    for char in text:
        depth += (char in "(<{[") - (char in ")>}]")
        if char == mark and depth == 0:
            pieces.append(piece)
            piece = ""
        else:
            piece += char
    return [p.strip() for p in pieces + [piece] if p.strip()]


def variants(type_):
    """The variants of an enum: name, and parts as (Rust type, whether it stands in a Boxed)."""
    source = (CRATE / f"src/{TYPES[type_][0]}.rt").read_text()
    source = re.sub(r"//[^\n]*", "", source)
    start = source.index(f"pub enum {type_} {{") + len(f"pub enum {type_} {{")
    depth, end = 1, start
    while depth:
        depth += (source[end] == "{") - (source[end] == "}")
        end += 1
    out = []
    for item in split_at(source[start : end - 1], ","):
        name = re.match(r"\w+", item)[0]
        rest = item[len(name) :].strip()
        parts = []
        for part in split_at(rest[1:-1], ",") if rest else []:
            if rest[0] == "{":
                part = part.split(":", 1)[1].strip()
            boxed = re.fullmatch(r"Boxed<(.*)>", part)
            parts.append((boxed[1] if boxed else part, bool(boxed)))
        out.append((name, parts))
    return out


def seen(part, type_):
    return type_ if part[0] == type_ else SEEN[part[0]][0]


def is_boxed(variant):
    return any(boxed for _, boxed in variant[1])


def imports(parts, type_):
    """The imports that the types of these parts want."""
    lines = {SEEN[part][1] for part, _ in parts if part != type_ and SEEN[part][1]}
    return [f"use {MODULE}.{line}" for line in sorted(lines)]


def patterns(type_):
    module, file = TYPES[type_]
    path = f"{MODULE}.declared.{module}.{type_}"
    all_ = variants(type_)
    boxed = [v for v in all_ if is_boxed(v)]
    plain = [v[0] for v in all_ if not is_boxed(v)]
    parts = [p for v in boxed for p in v[1]]
    lines = [
        HEAD + f"-- The cases of a `{type_}`, as patterns: a part that stands in a `Boxed` is seen as the part itself.",
        "use Rattle.std.specs.Prelude.{◌≡◌, refl" + "".join(f", {w}" for w in ("ℕ", "List", "Option") if any(w in seen(p, type_) for p in parts)) + "}",
        "use denote.Hole.Carrier.{hidden}",
    ]
    lines += imports(parts, type_)
    lines += [
        f"use {path}.{{{type_}, Row_of-{type_}, more_of-{type_}, end_of-{type_}}}",
        f"use {path}.TheBlock.{{shape-the_row-{type_}-0, hidden-the_row-{type_}-0}}",
        f"use {path}.TheVariants as made",
        f"use {path}.TheVariants.{{{', '.join(v[0] + chr(39) for v in boxed)}}}",
        f"pub use {path}.TheVariants.{{{', '.join(plain)}}}",
        "",
        f"pattern abbrev pub only : {type_} → Row_of-{type_} 1",
        f"only a = more_of-{type_} a end_of-{type_}",
    ]
    for name, vparts in boxed:
        letters = "abcdefgh"[: len(vparts)]
        sides = " ".join(f"tt (only {x})" if b else x for x, (_, b) in zip(letters, vparts))
        signature = " → ".join([seen(p, type_) for p in vparts] + [type_])
        lines += ["", f"pattern abbrev pub {name} : {signature}", f"{name} {' '.join(letters)} = {name}' {sides}"]
    lines += ["", "-- what code makes is the case"]
    for name, vparts in boxed:
        letters = "abcdefgh"[: len(vparts)]
        binders = " ".join(f"({x} : {seen(p, type_)})" for x, p in zip(letters, vparts))
        row = " ".join(letters)
        lines += [
            f"pub made-{name} : {binders} → made.{name} {row} ≡ {name} {row}",
            f"unfolding shape-the_row-{type_}-0 hidden-the_row-{type_}-0 hidden",
            f"made-{name} {row} = refl",
            "",
        ]
    lines += [f"pub ruleset {file[0].lower() + file[1:]}_made = ({', '.join('made-' + v[0] for v in boxed)})"]
    (CRATE / f"specs/{file}.antt").write_text("\n".join(lines) + "\n")


def words(text):
    """The names in the text that stand for themselves, without qualifiers and fields."""
    names = set(re.findall(r"(?<![\w.'◌-])[^\s(){}\[\],;.λ=→:]+", text))
    return names | ({"[]"} if "[]" in text else set())


def atoms(text):
    """The arguments on a left side."""
    out, depth, atom = [], 0, ""
    for char in text.strip() + " ":
        depth += (char == "(") - (char == ")")
        if char == " " and depth == 0:
            if atom:
                out.append(atom)
            atom = ""
        else:
            atom += char
    return out


def arguments(signature):
    """The argument types of a signature, and its result."""
    pieces, depth, piece = [], 0, ""
    for char in signature:
        depth += (char == "(") - (char == ")")
        if char == "→" and depth == 0:
            pieces.append(piece.strip())
            piece = ""
        else:
            piece += char
    return pieces, piece.strip()


def definition(text, name):
    """Its module's binders, argument types and clauses (patterns, right side) in the text of a file."""
    found = re.search(rf"^( *)unfoldable pub {name} : (.*)$", text, re.M)
    if not found:
        sys.exit(f"no definition {name}")
    indent = found[1]
    binders = []
    if indent:
        above = re.findall(r"^module _ (.*) where$", text[: found.start()], re.M)[-1]
        binders = re.findall(r"\(([^:()]+) : ([^()]+)\)", above)
        binders = [(n, t.strip()) for names, t in binders for n in names.split()]
    clauses = []
    for line in text[found.end() :].splitlines()[1:]:
        if line.startswith(f"{indent}{name} "):
            clauses.append(line.strip())
        elif line.startswith(indent + "    ") and clauses:
            clauses[-1] += "\n" + line[len(indent) :]
        else:
            break
    out = []
    for clause in clauses:
        left, right = clause.split(" =", 1)
        out.append((atoms(left)[1:], right.strip()))
    return binders, arguments(found[2])[0], out


def in_module(text, indent_names, binders):
    """The text of a module's body, as it reads outside of the module."""
    for name in indent_names:
        text = re.sub(rf"(?<![\w.-]){name}(?![\w-])", " ".join([name] + [n for n, _ in binders]), text)
    return text


def covering(clauses, at, variant):
    """The first clause that covers the variant, and whether it names it."""
    for patterns_, right in clauses:
        pattern = patterns_[at]
        if pattern.strip("()").split()[0].split(".")[-1] == variant:
            return patterns_, right, True
        if re.fullmatch(r"[a-z_]\w*", pattern):
            return patterns_, right, False
    sys.exit(f"no case {variant}")


def equation(name, type_, made, variant, whole, local):
    """The lemma that says what the definition is of the variant."""
    binders, args, clauses = whole
    vname, vparts = variant
    at = args.index(type_)
    patterns_, right, named = covering(clauses, at, vname)
    part_names = atoms(patterns_[at].strip("()"))[1:] if named else [f"p{i}" for i in range(1, len(vparts) + 1)]
    variables, on_left = [], []
    for i, (pattern, arg) in enumerate(zip(patterns_, args)):
        if i == at:
            variables += [(x, seen(p, type_)) for x, p in zip(part_names, vparts)]
            row = " ".join([f"{made}.{vname}"] + part_names)
            on_left.append(f"({row})" if part_names else row)
        else:
            variables.append((pattern if pattern != "_" else f"x{i}", arg))
            on_left.append(variables[-1][0])
    all_ = binders + variables
    right = in_module(right, local, binders) if binders else right
    right = right if re.fullmatch(r"[\w.]+|\[\]", right) else f"({right})"
    signature = " ".join(f"({n} : {t})" for n, t in all_) + (" → " if all_ else "")
    left = " ".join([name] + [n for n, _ in binders] + on_left)
    opens = f"unfolding {name}" + (f" hidden-the_row-{type_}-0 hidden" if any(b for _, b in vparts) else "")
    row = " ".join([f"{name}-{vname}"] + [n for n, _ in all_])
    return [f"pub {name}-{vname} : {signature}{left} ≡ {right}", opens, f"{row} = refl", ""]


def kept_imports(text, used, whole):
    """Of a file's imports those that the lemmas use, and the names that they bring."""
    lines, names = [], set()
    for line in text.splitlines():
        found = re.fullmatch(r"(?:pub )?use ([\w.-]+)\.\{(.*)\}", line)
        if found:
            items = [w.strip() for w in found[2].split(",")]
            keep = [w for w in items if w not in BASIC and (w.split(" as ")[-1] in used or operator_in(w, used))]
            names |= {w.split(" as ")[-1] for w in keep}
            if keep:
                lines.append(f"use {found[1]}.{{{', '.join(keep)}}}")
            continue
        found = re.fullmatch(r"use ([\w.-]+) as (\w+)", line)
        if found and re.search(rf"(?<![\w-]){found[2]}\.", whole):
            lines.append(line)
            names.add(found[2])
    return lines, names


def part_imports(types, names, used, whole):
    """The imports of the types of parts that are not there yet."""
    lines = []
    for type_ in sorted(types):
        for wanted in imports([p for v in variants(type_) for p in v[1]], type_):
            what = wanted.split(".{")[-1].rstrip("}") if ".{" in wanted else wanted.split(" as ")[-1]
            if what not in names and (what in used or re.search(rf"(?<![\w-]){what}\.", whole)):
                lines.append(wanted)
                names.add(what)
        if type_ not in names:
            lines.append(f"use {MODULE}.declared.{TYPES[type_][0]}.{type_}.{{{type_}}}")
            names.add(type_)
    return lines


def equations(file, definitions):
    text = (CRATE / f"specs/{file}.antt").read_text()
    local = re.findall(r"^  (?:unfoldable pub|abbrev pub|pub record|pub data) ([\w-]+)", text, re.M)
    types = dict.fromkeys(type_ for _, type_, _ in definitions)
    made = {t: "made" if len(types) == 1 else f"made_{TYPES[t][1][:-5].lower()}" for t in types}
    body, rulesets = [], []
    for name, type_, ruleset in definitions:
        for variant in variants(type_):
            body += equation(name, type_, made[type_], variant, definition(text, name), local)
        rulesets.append(f"pub ruleset {ruleset} = ({', '.join(f'{name}-{v[0]}' for v in variants(type_))})")
    whole = "\n".join(body)
    used = words(whole)
    basic = [w for w in BASIC if w in ("◌≡◌", "refl") or w in used]
    lines = [
        HEAD + f"-- What the definitions of {file} are of the values that code makes, for proofs about code.",
        f"use Rattle.std.specs.Prelude.{{{', '.join(basic)}}}",
        "use denote.Hole.Carrier.{hidden}",
    ]
    for type_ in types:
        path = f"{MODULE}.declared.{TYPES[type_][0]}.{type_}"
        lines += [f"use {path}.TheBlock.{{hidden-the_row-{type_}-0}}", f"use {path}.TheVariants as {made[type_]}"]
    kept, names = kept_imports(text, used, whole)
    names |= set(basic)
    own = [n for n in re.findall(r"^ *(?:unfoldable pub|abbrev pub|pub record|pub data) ([\w-]+)", text, re.M) if n in used]
    own += [n for n in re.findall(r"^  ([A-Z]\w*) : .*→ \w+$", text, re.M) if n in used and n not in names]
    lines += kept + [f"use {MODULE}.{file}.{{{', '.join(dict.fromkeys(own))}}}"] + part_imports(types, names, used, whole)
    rows = "\n".join(lines) + "\n\n" + whole + "\n" + "\n\n".join(rulesets) + "\n"
    (CRATE / f"specs/{file}Equations.antt").write_text(rows)


def operator_in(word, used):
    """Whether an operator such as `◌++◌` or `if◌then◌else◌` stands in the text."""
    if "◌" not in word:
        return False
    return all(part in used for part in word.split("◌") if part)


if __name__ == "__main__":
    for type_ in TYPES:
        patterns(type_)
    for file, definitions in DEFINITIONS.items():
        if (CRATE / f"specs/{file}.antt").exists():
            equations(file, definitions)
