"""Draws the tree of a plan: as text with box characters, and in the language of Graphviz."""
import html
import textwrap

RULE_WIDTH = 52


def as_text(numbers, top, width):
    """Lines of a tree, the outer input first, wrapped at this width."""
    return "\n".join([*([numbers] if numbers else []), *lines(top, width)]) + "\n"


def details(node):
    return [part for part in (node.goal, node.origin, node.rule) if part]


def lines(node, width):
    below = "│ " if node.inputs else "  "
    drawn = [node.operator]
    for detail in details(node):
        wrapped = textwrap.wrap(detail, max(width - 4, 40), break_on_hyphens=False)
        drawn += [below + ("  " if number else "") + line for number, line in enumerate(wrapped)]
    for number, part in enumerate(node.inputs, 1):
        last = number == len(node.inputs)
        first, *rest = lines(part, width - 3)
        drawn.append(("└─ " if last else "├─ ") + first)
        drawn += [("   " if last else "│  ") + line for line in rest]
    return drawn


def as_dot(numbers, top):
    """The same tree in the language of Graphviz: inputs below their operator, the outer on the left."""
    statements = []
    draw(top, "n", statements)
    head = [
        "digraph plan {",
        f"  label={quoted(numbers)}; labelloc=t;",
        '  node [shape=box, style=rounded, fontname=Helvetica, fontsize=11, margin="0.2,0.08"];',
        "  edge [dir=back, arrowsize=0.6];",
        "  graph [fontname=Helvetica, fontsize=12, ordering=out, nodesep=0.3, ranksep=0.35];",
    ]
    return "\n".join([*head, *statements, "}", ""])


def draw(node, name, statements):
    rows = [node.goal, node.origin]
    label = [f"<b>{node.operator}</b>", *(html.escape(row) for row in rows if row)]
    wrapped = textwrap.wrap(node.rule, RULE_WIDTH, break_on_hyphens=False)
    code = '<br align="left"/>'.join(html.escape(line) for line in [*wrapped, ""])
    label.append(f'<font face="Courier" point-size="9">{code}</font>' if wrapped else "")
    statements.append(f"  {name} [label=<{'<br/>'.join(row for row in label if row)}>];")
    for number, part in enumerate(node.inputs):
        below = f"{name}_{number}"
        draw(part, below, statements)
        statements.append(f"  {name} -> {below};")


def quoted(text):
    return '"' + text.replace("\\", "\\\\").replace('"', '\\"') + '"'
