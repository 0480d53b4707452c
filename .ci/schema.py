#!/usr/bin/env python3
"""usage: holzikra COMMAND --format json FILE.. | .ci/schema.py

Looks whether each line is an object by docs/holzikra-1.schema.json. A member that the schema does not name is a fault too, so that none is left
out of it. Of JSON Schema (draft 2020-12) it knows the keywords that the schema uses, and refuses a schema with others."""
import json
import os
import re
import sys

SCHEMA = f"{os.path.dirname(os.path.dirname(os.path.abspath(__file__)))}/docs/holzikra-1.schema.json"

# Keywords that say nothing of a value.
SILENT = {"$schema", "$defs", "title", "description"}

TYPES = {"object": dict, "array": list, "string": str, "boolean": bool, "null": type(None)}


def is_of(value, type_name):
    if type_name == "integer":
        return isinstance(value, int) and not isinstance(value, bool)
    return isinstance(value, TYPES[type_name])


def is_same(value, wanted):
    """Whether two values of JSON are one: true is not 1."""
    return type(value) is type(wanted) and value == wanted


def depth_of(faults):
    """How deep the outermost of some faults lies. Of several forms a value is nearest to the one where it lies deepest."""
    return min(sum(fault.split(":")[0].count(step) for step in ".[") for fault in faults)


class Schema:
    def __init__(self, whole):
        self.whole = whole

    def at(self, reference):
        """What a reference into the schema names."""
        if not reference.startswith("#/"):
            raise ValueError(f"a reference to {reference}")
        found = self.whole
        for step in reference[2:].split("/"):
            found = found[step]
        return found

    def faults(self, value, rule, where="$"):
        """What is wrong with a value by a rule of the schema, each in words."""
        for keyword, wanted in rule.items():
            if keyword not in SILENT:
                yield from getattr(self, f"by_{keyword.lstrip('$')}")(value, wanted, rule, where)

    def by_ref(self, value, reference, _, where):
        yield from self.faults(value, self.at(reference), where)

    def by_type(self, value, type_name, _, where):
        if not is_of(value, type_name):
            yield f"{where}: no {type_name}"

    def by_const(self, value, wanted, _, where):
        if not is_same(value, wanted):
            yield f"{where}: not {json.dumps(wanted)}"

    def by_enum(self, value, wanted, _, where):
        if not any(is_same(value, one) for one in wanted):
            yield f"{where}: none of {json.dumps(wanted)}"

    def by_minimum(self, value, least, _, where):
        if is_of(value, "integer") and value < least:
            yield f"{where}: below {least}"

    def by_maximum(self, value, most, _, where):
        if is_of(value, "integer") and value > most:
            yield f"{where}: above {most}"

    def by_pattern(self, value, pattern, _, where):
        if isinstance(value, str) and not re.search(pattern, value):
            yield f"{where}: not {pattern}"

    def by_required(self, value, names, _, where):
        if isinstance(value, dict):
            yield from (f"{where}: no member {name}" for name in names if name not in value)

    def by_properties(self, value, rules, _, where):
        if isinstance(value, dict):
            for name, one in value.items():
                if name in rules:
                    yield from self.faults(one, rules[name], f"{where}.{name}")
                else:
                    yield f"{where}: a member {name}"

    def by_items(self, value, rule, _, where):
        if isinstance(value, list):
            for index, one in enumerate(value):
                yield from self.faults(one, rule, f"{where}[{index}]")

    def by_oneOf(self, value, rules, _, where):
        found = [list(self.faults(value, rule, where)) for rule in rules]
        if sum(not faults for faults in found) != 1:
            yield max(found, key=depth_of)[0] if all(found) else f"{where}: more than one form"


def read():
    """The schema of what holzikra writes."""
    with open(SCHEMA, encoding="utf-8") as file:
        return Schema(json.load(file))


def faults(schema, line):
    """What is wrong with a line."""
    try:
        value = json.loads(line)
    except json.JSONDecodeError as error:
        return [f"no JSON: {error}"]
    return list(schema.faults(value, schema.whole))


def damaged(value):
    """Values that are wrong where this one is right: in each a leaf is a list, or an object has a member more. Of lists the ends are tried."""
    if isinstance(value, dict):
        yield {**value, "other": 0}
        for name, one in value.items():
            yield from ({**value, name: bad} for bad in damaged(one))
    elif isinstance(value, list):
        for index in {0, len(value) - 1} if value else ():
            yield from ([*value[:index], bad, *value[index + 1 :]] for bad in damaged(value[index]))
    else:
        yield []


def main():
    schema, failed = read(), 0
    for number, line in enumerate(sys.stdin, 1):
        for fault in faults(schema, line):
            print(f"line {number}: {fault}")
            failed += 1
    sys.exit(failed > 0)


if __name__ == "__main__":
    main()
