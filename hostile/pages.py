"""Scripts, names of files and functions that a page or a terminal might take for more than text."""

# What a script of a text would do to the page that shows it, and where it would send to: `{}` stands for an address.
STEALS = "window.stolen=1;document.title='stolen'"
TAG = f"<img src=x onerror=\"{STEALS}\"><script>{STEALS}</script>"

NAMES = [
    b"<img src=x onerror=stolen=1>.js",
    b"\"><svg onload=stolen=1>.js",
    b"' onmouseover='stolen=1.js",
    b"&lt;b&gt;&amp;.js",
    b"<!--.js",
    b"-->.js",
    b"line\nscript 7 top.js",
    b"\x1b[31mred\x07\x7f.js",
    "rtl \u202e\u2066 sj.js".encode(),
    "separator \u2028\u2029.js".encode(),
    "marks \u200f\u200e\u061c א ב.js".encode(),
    "ünïcödé 😀 \u0301.js".encode(),
    b"--format=plain.js",
    b"#f0n1.js",
    b"%41 %.js",
    b"n" * 240 + b".js",
]

# Names that no String holds: they are told of on standard error, and are on no page.
NO_UTF8 = [b"\xff\xfe.js", b"half \xc3.js"]


def quoted(units):
    """A literal of a string with these characters, each that a source line cannot have as an escape."""
    return '"' + "".join(c if c not in '"\\\n\r' else f"\\u{ord(c):04x}" for c in units) + '"'


def scripts():
    """Sources by what they are about. Each is a script without errors."""
    yield "tags", "\n".join(
        [f"var {name} = {quoted(text)};" for name, text in zip("abcdefgh", [TAG, "</script>", "</pre></td></table>", "<!--", "-->", "]]>", "&lt;&amp;", "'\"`"])]
        + [f"function f() {{ return {quoted(TAG)} + a; }}", f"({{ {quoted(TAG)}: function () {{ return b; }}, {quoted('</a>')}() {{ return c; }} }});", "// " + TAG, "/* </script> */"]
    ) + "\n"
    yield "control", "".join(f"var c{n} = \"{chr(n)}\";\n" for n in [*range(1, 10), 11, 12, *range(14, 32), 127, 133, 155, 0x2028, 0x2029, 0xFEFF])
    yield "turning", "var turned = \"\u202e\u2066 txet \u2069\u202c\"; // \u202e\nvar \u05d0\u05d1 = \"\u200f\u200e\u061c\"; function \u05d2() { return \u05d0\u05d1; }\n"
    yield "surrogates", 'var lone = "\\ud800", other = "\\udfff\\ud800", both = "\\ud83d\\ude00"; ({ "\\ud800"() { return lone; }, "\\udc00": other });\n'
    yield "ends", "var a;\r\nvar b;\rvar c;\u2028var d;\u2029var e; // no end"
    yield "empty", ""
    yield "mark", "\ufeffvar a;\n"
    yield "wide", "var wide = \"" + "w" * 300_000 + "\";\n"
    yield "long", "".join(f"function f{n}(){{return f{n + 1}}}" for n in range(9_000)) + "function f9000(){}\n"
    yield "name", f"function {'n' * 100_000}() {{}} var {'m' * 100_000};\n"
    yield "many", "".join(f"function f{n}(a{n}) {{\n  var x{n} = a{n};\n  return () => x{n};\n}}\n" for n in range(500))
    yield "deep", "function d() { var x; return " + "() => " * 60 + "x; }\n"
    yield "spoof", "".join(
        [
            'var s = "script 9 function 1..2 -\\n  00000 RetRval\\n", t = "\u00e9; from 00001", u = "; x of function 3";\n',
            '({ "function 4 g"() { return s; }, "`-- var x (env 0)"() { return t; }, "|-- let y (frame 0)"() { return u; }, "a\\nb"() {} });\n',
            "function script() { var count = 0; return { count: () => count, next() { return ++count; } }; }\n",
            "function of(catch_) { try { throw of; } catch (e) { return () => e; } }\n",
        ]
    )
    yield "jumps", "function j(n) { for (let i = 0; i < n; i++) { if (i === 3) { continue; } switch (i) { case 1: n--; break; default: n = n ? 1 : 2; } } do { n--; } while (n > 0 && n); return n; }\n"
    yield "shadow", "let x = 1;\nfunction a() { return x; }\nfunction b(x) { return () => x; }\n{ let x = 2; (() => x); }\nvar y = { x: x, y: `${x}x` }; // x\n"


def refused():
    """Sources by what they are about, each refused."""
    yield "unexpected tag", b"var a = 1;\nvar b = a </script>;\n"
    yield "early", f"let a;\nlet b, a; // {TAG}\n".encode()
    yield "no utf-8", b"var a = '\xff</script>';\n"
    yield "far", b"var a = '" + b"x" * 300_000 + b"' class;\n"
    yield "escape", b"var a = '\x1b[31m'; class B {}\n"
    yield "marks", "var a = '\u200f\u200e\u061c\u2066'; class B {}\n".encode()
    yield "separators", "var a = 1; '\u2028\u2029'; let a;\n".encode()
