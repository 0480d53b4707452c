#!/usr/bin/env python3
"""usage: holzikra code --format json FILE.. | hostile/listings.py
       holzikra scopes --format json FILE.. | hostile/listings.py
       holzikra load --format json IMAGE.. | hostile/listings.py

Makes of the lines of JSON that `code`, `scopes`, `load` and `check` of holzikra write the listings and lines that stencilc prints for the same files, by
docs/manual.md alone and from nothing but the JSON. It refuses, by a KeyError, an object that lacks a member, and passes over members that a listing
does not have, as lines and columns."""
import json
import sys

REASONS = {"unexpected": "unexpected", "too_deep": "too deep", "not_utf8": "not UTF-8"}


def units(text):
    """The 16-bit units of a text: of a string, or those that are listed where one has no other half."""
    if isinstance(text, dict):
        return text["units"]
    found = text.encode("utf-16-le")
    return [found[at] + 256 * found[at + 1] for at in range(0, len(found), 2)]


def quoted(text):
    return '"' + "".join(chr(unit) if 32 <= unit < 127 and unit not in (34, 92) else f"\\u{unit:04x}" for unit in units(text)) + '"'


def name_of(script):
    return "-" if script["name"] is None else quoted(script["name"])


def extent_of(script):
    return f"{script['start']['offset']}..{script['end']['offset']}"


def list_of(items):
    return ",".join(items) or "-"


def operand_of(instruction):
    """What stands behind the name of an instruction, with a blank in front of it."""
    if "hops" in instruction:
        return f" {instruction['hops']} {instruction['slot']}"
    if "text" in instruction:
        return " " + quoted(instruction["text"])
    return "".join(f" {int(instruction[member])}" for member in ("number", "bits", "to", "function") if member in instruction)


def code_of(script):
    for instruction in script["code"]:
        yield f"  {instruction['at']:05d} {instruction['op']}{operand_of(instruction)}"
    for note in script["tries"]:
        yield f"  catch {note['start']}..{note['end']} depth {note['depth']}"


def place_of(place):
    if place in ("global", "callee"):
        return place
    ((kind, number),) = place.items()
    if kind not in ("arg", "env", "frame"):
        raise ValueError(f"a place {kind}")
    return f"{kind} {number}"


def scopes_of(script):
    for scope in script["scopes"]:
        parent = "-" if scope["parent"] is None else scope["parent"]
        yield f"  scope {scope['number']} {scope['kind']} parent {parent} env {scope['env']}"
        for binding in scope["bindings"]:
            yield f"    {quoted(binding['name'])} {binding['declared']} {place_of(binding['place'])}"


def script_lines(script):
    number, extent = script["number"], extent_of(script)
    if "params" not in script:
        closed = [f"{one['scope']}:{quoted(one['name'])}" for one in script["closed"]]
        yield f"script {number} lazy {extent} {name_of(script)} inner {list_of(map(str, script['inner']))} closed {list_of(closed)}"
        return
    yield f"script {number} function {extent} {name_of(script)}" if number else f"script 0 top {extent}"
    yield from code_of(script) if "code" in script else scopes_of(script)


def refusal_line(file):
    refusal = file["refusal"]
    if refusal["reason"] == "too_long":
        return f"{file['file']}: too long"
    reason = f"early error {refusal['rule']}" if refusal["reason"] == "early" else REASONS[refusal["reason"]]
    return f"{file['file']}:{refusal['offset']}: {reason}"


def file_lines(file):
    """The lines of stencilc for a file, of which this is the object."""
    if file["kind"] == "refused":
        yield refusal_line(file)
    elif file["kind"] == "ok":
        yield f"{file['file']}: ok, {file['functions']} functions"
    elif file["kind"] == "script":
        yield f"file {file['file']}"
        if [script["number"] for script in file["scripts"]] != list(range(file["functions"] + 1)):
            raise ValueError("the scripts are not those from 0 on, in order")
        for script in file["scripts"]:
            yield from script_lines(script)
    else:
        raise ValueError(f"a file of the kind {file['kind']}")


def listing(line):
    """The bytes that stencilc prints for a file, from its line of JSON."""
    return "".join(f"{made}\n" for made in file_lines(json.loads(line))).encode()


def main():
    for line in sys.stdin.buffer:
        sys.stdout.buffer.write(listing(line))


if __name__ == "__main__":
    main()
