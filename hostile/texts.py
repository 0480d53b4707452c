"""Texts that are hard to read: the deepest of each form, the largest of each kind, and listings that are larger than their texts."""

MOST_BYTES = 16_777_215

# An operator of each level of precedence: a tree that is eleven nodes deeper, none of which counts for the depth. A conditional, a
# postfix operator and a member make it three deeper again.
OPERATORS = "a||b&&c|d^e&f==g<h<<i+j*k**"

# What stands before and after, n times, and what in the middle. Each form is a script at depth 1.
NESTED = {
    "parentheses": ("(", "x", ")"),
    "arrays": ("[", "x", "]"),
    "objects": ("({a:", "x", "})"),
    "computed keys": ("({[", "x", "]:1})"),
    "blocks": ("{", "", "}"),
    "functions": ("function f(){", "", "}"),
    "function expressions": ("(function(){", "", "})"),
    "arrows": ("x=>", "x", ""),
    "arrows with bodies": ("()=>{", "", "}"),
    "parameters": ("(a=", "x", ")=>0"),
    "methods": ("({m(){", "", "}})"),
    "getters": ("({get a(){", "", "}})"),
    "templates": ("`${", "x", "}`"),
    "calls": ("f(", "x", ")"),
    "members": ("a[", "x", "]"),
    "news": ("new ", "x", ""),
    "prefix operators": ("!", "x", ""),
    "typeofs": ("typeof ", "x", ""),
    "assignments": ("a=", "x", ""),
    "conditionals": ("a?", "x", ":b"),
    "powers": ("a**(", "x", ")"),
    "ifs": ("if(a)", ";", ""),
    "elses": ("if(a);else ", ";", ""),
    "whiles": ("while(a)", ";", ""),
    "dos": ("do ", ";", " while(a)"),
    "fors": ("for(;;)", ";", ""),
    "fors with names": ("for(let a=()=>a;;)", ";", ""),
    "for-ins": ("for(a in b)", ";", ""),
    "for-ins with names": ("for(let a in ()=>a)", ";", ""),
    "switches": ("switch(a){case 0:", "", "}"),
    "tries": ("try{", "", "}catch(e){}"),
    "handlers": ("try{}catch(e){", "", "}"),
    "operators in parentheses": (OPERATORS + "(", "x", ")"),
    "operators in objects": (OPERATORS + "{a:", "x", "}"),
    "operators in initializers": (OPERATORS + "function(a=", "x", "){}"),
    "operators around members": (OPERATORS + "(", "x", ").a++?b:c"),
}


def nested(form, depth):
    before, middle, after = NESTED[form]
    return before * depth + middle + after * depth


# The unit of which a large text of each kind is made; `#` is a number that rises.
REPEATED = {
    "empty statements": ";",
    "names": "a;",
    "line ends": "\n",
    "blanks": " ",
    "comments": "/**/",
    "comments to the line's end": "//\n",
    "numbers": "1;",
    "strings": "'a';",
    "escapes": "'\\u{61}';",
    "templates": "`a`;",
    "other names": "a#;",
    "other strings": "'a#';",
    "sums": "a+b;",
    "calls": "f(a,b);",
    "assignments": "a=b;",
    "objects": "({a:1,b:2});",
    "arrays": "[1,2,3];",
    "members": "a.b.c;",
    "var declarations": "var a#=1;",
    "let declarations": "let a#=1;",
    "functions": "function f#(a,b){return a+b}",
    "arrows": "x=>x;",
    "closures": "(function(a){return ()=>a});",
    "blocks": "{let a;}",
    "ifs": "if(a)b;else c;",
    "loops": "for(;;)break;",
    "tries": "try{a}catch(e){b}",
    "labels": "l:;",
    "names with labels": "l:a;",
    "empty blocks": "{}",
    "blocks with names": "{a}",
    "empty functions": "function f(){}",
    "empty arrows": "()=>{};",
    "names of two bytes": "é;",
    "names of four bytes": "𝒳;",
}


def filled(size, before, piece, after=""):
    """A text of at most this many bytes: as many pieces as there is room for, between two ends. A `#` of a piece is its number, from 0."""
    before, piece, after = before.encode(), piece.encode(), after.encode()
    left, out = size - len(before) - len(after), [before]
    if b"#" not in piece:
        out.append(piece * (left // len(piece)))
        return b"".join(out) + after
    number = 0
    while True:
        one = piece.replace(b"#", b"%d" % number)
        left -= len(one)
        if left < 0:
            return b"".join(out) + after
        out.append(one)
        number += 1


def repeated(kind, size):
    """A script of at most this many bytes, of one kind."""
    return filled(size, "", REPEATED[kind])


# Forms with one part that is large: what stands before, the piece of which there are many, and what stands behind.
ONE = {
    "one array": ("[", "1,", "]"),
    "one sum": ("a", "+a", ""),
    "one chain": ("a", ".a", ""),
    "one comma": ("a", ",a", ""),
    "one name": ("a", "a", ""),
    "one string": ("'", "a", "'"),
    "one template": ("`", "a", "`"),
    "one comment": ("/*", "a", "*/"),
    "one object": ("({", "a#:1,", "})"),
    "one switch": ("switch(a){", "case #:", "}"),
    "one let": ("let a", ",a#", ";"),
}

# A call has 65,535 arguments at most, and so many bytes.
MOST_CALL = 2 * 65_535 + 2


def one_part(kind, size):
    """A script of at most this many bytes, with one part that is large."""
    return filled(size, *ONE[kind])


def large(size):
    """Of each kind of large texts a script of at most this many bytes, made when it is asked for."""
    made = {kind: (lambda kind=kind: repeated(kind, size)) for kind in REPEATED}
    made.update({kind: (lambda kind=kind: one_part(kind, size)) for kind in ONE})
    made["one call"] = lambda: filled(min(size, MOST_CALL), "f(0", ",0", ")")
    return made


def leaving(loops, breaks):
    """A short text with a long listing: each break leaves all loops, with an instruction or two for each."""
    return "l:" + "for(let a in ()=>a)" * loops + "{" + "break l;" * breaks + "}"
