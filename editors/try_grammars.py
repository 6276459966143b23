"""Reads the TextMate grammars, and compiles each regular expression in them."""
import glob
import json
import os
import re

FOLDER = os.path.join(os.path.dirname(os.path.realpath(__file__)), "textmate")


def expressions(part):
    """All expressions of a grammar or of a part of it."""
    if isinstance(part, list):
        return [found for item in part for found in expressions(item)]
    if isinstance(part, dict):
        own = [part[key] for key in ("match", "begin", "end") if key in part]
        return own + [found for item in part.values() for found in expressions(item)]
    return []


def main():
    compiled = 0
    for name in glob.glob(os.path.join(FOLDER, "**", "*.json"), recursive=True):
        with open(name, encoding="utf-8") as file:
            found = expressions(json.load(file))
        for expression in found:
            re.compile(expression)
        compiled += len(found)
    with open(os.path.join(FOLDER, "package.json"), encoding="utf-8") as file:
        grammars = json.load(file)["contributes"]["grammars"]
    for grammar in grammars:
        with open(os.path.join(FOLDER, grammar["path"]), encoding="utf-8") as file:
            assert json.load(file)["scopeName"] == grammar["scopeName"], grammar["path"]
    print(f"{compiled} expressions of {len(grammars)} grammars")


main()
