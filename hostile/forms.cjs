// usage: node --expose-internals forms.cjs FILE..
// Says of each file, in a line of JSON, at which offsets (in bytes) which codes of forms may stand that the profile leaves out, as acorn reads
// the file: {"file": .., "forms": {"OFFSET": ["P2", ..]}}, or {"file": .., "forms": null} where acorn reads it neither as a script nor as a module.
// The parser is the one that node has inside.
"use strict";
const fs = require("fs");
const acorn = require("internal/deps/acorn/acorn/dist/acorn");

const MOST = Number.MAX_SAFE_INTEGER;

function parsed(text) {
  for (const sourceType of ["script", "module"]) {
    try {
      const tokens = [];
      const tree = acorn.parse(text, { ecmaVersion: "latest", sourceType, allowHashBang: true, allowReturnOutsideFunction: true, onToken: tokens });
      return { tree, tokens };
    } catch (_) { /* the other one */ }
  }
  return null;
}

// Whether a parameter is a pattern with brackets, without its initializer or what is gathered in it.
function hasPattern(param) {
  if (param.type === "AssignmentPattern") return hasPattern(param.left);
  if (param.type === "RestElement") return hasPattern(param.argument);
  return param.type === "ArrayPattern" || param.type === "ObjectPattern";
}

// The offsets in bytes of offsets in units.
function offsets(text) {
  const at = new Uint32Array(text.length + 1);
  let bytes = 0;
  for (let i = 0; i < text.length; i++) {
    at[i] = bytes;
    const unit = text.charCodeAt(i);
    bytes += unit < 0x80 ? 1 : unit < 0x800 ? 2 : unit >= 0xd800 && unit < 0xe000 ? 2 : 3;
  }
  at[text.length] = bytes;
  return at;
}

class Forms {
  constructor(text, tokens) {
    this.text = text;
    this.tokens = tokens;
    this.at = offsets(text);
    this.found = {};
  }

  note(code, unit) {
    const key = this.at[unit];
    (this.found[key] = this.found[key] || []).includes(code) || this.found[key].push(code);
  }

  // Notes the code at the first token from one unit on, before another, that has this text.
  noteToken(code, text, from, to) {
    for (let i = this.first(from); i < this.tokens.length && this.tokens[i].start < to; i++) {
      const token = this.tokens[i];
      if (this.text.slice(token.start, token.end) === text) return this.note(code, token.start);
    }
  }

  // The number of the first token from a unit on.
  first(from) {
    let low = 0, high = this.tokens.length;
    while (low < high) {
      const middle = (low + high) >> 1;
      if (this.tokens[middle].start < from) low = middle + 1; else high = middle;
    }
    return low;
  }

  // The first token from a unit on.
  noteFirst(code, from) {
    const token = this.tokens[this.first(from)];
    if (token) this.note(code, token.start);
  }

  literal(node) {
    if (node.regex) return this.note("P2", node.start);
    if (node.bigint !== undefined && node.bigint !== null) return this.note("P11", node.start);
    if (typeof node.value === "number") {
      if (/^0[0-9]/.test(node.raw)) this.note("P17", node.start);
      else if (/^[0-9._]*[.eE]/.test(node.raw) && !/^0[xXbBoO]/.test(node.raw)) this.note("P4", node.start);
      else if (node.value > MOST) this.note("P12", node.start);
    }
    if (typeof node.value === "string" && /\\[0-9]/.test(node.raw)) this.note("P17", node.start);
  }

  // A pattern: at its bracket, at the `=` behind it, and at the first token of what holds it.
  pattern(node, holder) {
    this.note("P3", node.start);
    this.noteToken("P3", "=", node.end, node.end + 200);
    if (holder) this.note("P3", holder.start);
  }

  // At the `=>` of an arrow, before which all of it may be other code: `async (..)` a call, `({..})` an object.
  arrow(node) {
    const last = node.params[node.params.length - 1];
    const from = last ? last.end : node.start;
    if (node.async) this.noteToken("P10", "=>", from, node.body.start);
    if (node.params.some(hasPattern)) this.noteToken("P3", "=>", from, node.body.start);
  }

  func(node) {
    if (node.type === "ArrowFunctionExpression") this.arrow(node);
    if (node.async) {
      this.note("P10", node.start);
      this.noteFirst("P10", node.start + 5);
    }
    if (node.generator) this.noteToken("P9", "*", node.start, node.body.start);
  }

  node(node, parent) {
    switch (node.type) {
      case "ImportDeclaration": case "ExportNamedDeclaration": case "ExportDefaultDeclaration": case "ExportAllDeclaration":
      case "ImportExpression": return this.note("P1", node.start);
      case "MetaProperty":
        return node.meta.name === "import" ? this.note("P1", node.start) : this.noteToken("P16", ".", node.start, node.end);
      case "Literal": return this.literal(node);
      case "ArrayPattern": case "ObjectPattern": return this.pattern(node, parent && parent.type === "AssignmentExpression" ? parent : null);
      case "AssignmentPattern":
        // a default in a pattern, `{a = 1}`
        return this.noteToken("P3", "=", node.left.end, node.right.start);
      case "ClassDeclaration": case "ClassExpression": case "Super": return this.note("P5", node.start);
      case "ForOfStatement":
        if (node.await) this.noteToken("P10", "await", node.start, node.left.start);
        return this.noteToken("P6", "of", node.left.end, node.right.start);
      case "TryStatement":
        if (node.finalizer) this.noteToken("P7", "finally", (node.handler || node.block).end, node.finalizer.start);
        return;
      case "SpreadElement": case "RestElement": return this.note("P8", node.start);
      case "YieldExpression":
        this.note("P17", node.start);
        return this.note("P9", node.start);
      case "AwaitExpression":
        this.note("P10", node.start);
        return this.noteFirst("P10", node.argument.start);
      case "FunctionDeclaration": case "FunctionExpression": case "ArrowFunctionExpression": return this.func(node);
      case "Property": case "MethodDefinition":
        if (node.value && node.value.generator) this.note("P9", node.start);
        if (node.value && node.value.async) { this.note("P10", node.start); this.noteFirst("P10", node.start + 5); }
        return;
      case "TaggedTemplateExpression": return this.note("P13", node.quasi.start);
      case "ChainExpression": case "MemberExpression": case "CallExpression":
        if (node.optional) this.noteToken("P14", "?.", (node.object || node.callee).end, node.end);
        return;
      case "AssignmentExpression":
        if (["&&=", "||=", "??="].includes(node.operator)) this.noteToken("P15", node.operator, node.left.end, node.right.start);
        return;
      case "WithStatement": return this.note("P17", node.start);
      case "ReturnStatement": return this.note("P18", node.start);
      case "Identifier":
        if (["implements", "interface", "let", "package", "private", "protected", "public", "static", "yield"].includes(node.name)) this.note("P17", node.start);
        if (/\\/.test(this.text.slice(node.start, node.end))) this.note("escape", node.start);
        return;
    }
  }

  walk(tree) {
    const todo = [[tree, null]];
    while (todo.length) {
      const [node, parent] = todo.pop();
      this.node(node, parent);
      for (const key of Object.keys(node)) {
        const value = node[key];
        if (Array.isArray(value)) { for (const it of value) if (it && typeof it.type === "string") todo.push([it, node]); }
        else if (value && typeof value.type === "string") todo.push([value, node]);
      }
    }
    return this.found;
  }
}

for (const file of process.argv.slice(2)) {
  let forms = null;
  const text = fs.readFileSync(file, "utf8");
  const read = parsed(text);
  if (read) forms = new Forms(text, read.tokens).walk(read.tree);
  console.log(JSON.stringify({ file, forms }));
}
