"use strict";
(function () {
  // Of each opcode: its operand, values taken, values given, where control goes. From docs/opcodes.md.
  var opcodes = {};
  var names = { "the place of an argument": true, "a slot of the frame": true, "hops, then a slot of that environment": true };
  var jump = "a distance in bytes, signed";
  // A token, a piece of a comment, a piece of a template, each from a place on.
  var token = new RegExp([
    "\\s+", "\\/\\/.*", "\\/\\*",
    "\"[^\"\\\\]*(?:\\\\.[^\"\\\\]*)*\"?",
    "'[^'\\\\]*(?:\\\\.[^'\\\\]*)*'?",
    "[\\p{ID_Start}$_][\\p{ID_Continue}$\\u200c\\u200d]*", "[\\d.]+", "."
  ].join("|"), "uy");
  var inComment = /.*?\*\/|.+/y;
  var inTemplate = /((?:[^\\`$]|\\.?|\$(?!\{))*(?:`|\$\{))|.+/y;
  var marked = [];
  var filter;

  function each(list, what) { Array.prototype.forEach.call(list, what); }
  function make(kind, name, text) {
    var element = document.createElement(kind);
    element.className = name;
    element.textContent = text;
    return element;
  }
  function mark(element, how) {
    if (!element) { return; }
    element.classList.add(how);
    element.setAttribute("data-selected", how);
    marked.push([element, how]);
  }
  function forget() {
    marked.forEach(function (one) {
      one[0].classList.remove(one[1]);
      one[0].removeAttribute("data-selected");
      if (one[0].tagName === "PRE") { one[0].tabIndex = -1; }
    });
    marked = [];
    if (CSS.highlights) { CSS.highlights.clear(); }
    each(document.querySelectorAll(".opcode"), function (row) { row.textContent = ""; });
  }
  function highlight(kind, ranges) {
    if (CSS.highlights && ranges.length) {
      var all = new Highlight();
      ranges.forEach(function (range) { all.add(range); });
      CSS.highlights.set(kind, all);
    }
  }
  // Scrolls the pane of an element so that it is seen, and not the page.
  function reveal(element) {
    var pane = element && element.closest(".pane");
    if (!pane) { return; }
    var at = element.getBoundingClientRect();
    var seen = pane.getBoundingClientRect();
    var above = element.closest(".tab") ? 96 : 24;
    if (at.top < seen.top + above) {
      pane.scrollTop += at.top - seen.top - above;
    } else if (at.bottom > seen.bottom) {
      pane.scrollTop += Math.min(at.bottom - seen.bottom + 24, at.top - seen.top - above);
    }
  }

  // Tabs.
  function show(file, name) {
    if (!file.querySelector('.tab[data-tab="' + name + '"]')) { return; }
    each(file.querySelectorAll(".tab"), function (tab) { tab.classList.toggle("hidden", tab.getAttribute("data-tab") !== name); });
    each(file.querySelectorAll("nav.tabs button"), function (button) {
      var on = button.textContent === name;
      button.setAttribute("aria-selected", on ? "true" : "false");
      button.tabIndex = on ? 0 : -1;
    });
  }
  function addTabs(file) {
    var first = file.querySelector(".tab");
    var bar = make("nav", "tabs", "");
    bar.setAttribute("role", "tablist");
    each(file.querySelectorAll(".tab"), function (tab) {
      var button = make("button", "", tab.getAttribute("data-tab"));
      tab.setAttribute("role", "tabpanel");
      button.setAttribute("role", "tab");
      button.addEventListener("click", function () { show(file, button.textContent); });
      bar.appendChild(button);
    });
    bar.addEventListener("keydown", function (event) {
      var step = event.key === "ArrowRight" ? 1 : event.key === "ArrowLeft" ? -1 : 0;
      var all = Array.prototype.slice.call(bar.children);
      var next = all[all.indexOf(event.target) + step];
      if (step && next) {
        next.click();
        next.focus();
      }
    });
    if (!first) { return; }
    first.parentNode.insertBefore(bar, first);
    each(file.querySelectorAll('.tab[data-tab="code"]'), function (tab) { tab.insertBefore(make("p", "opcode", ""), tab.children[1]); });
    show(file, file.querySelector('.tab[data-tab="code"]') ? "code" : first.getAttribute("data-tab"));
  }

  // Lines of a listing or a tree, each an element; made when they are first asked for.
  function lines(pre) {
    if (!pre.classList.contains("split")) {
      var texts = pre.textContent.split("\n");
      if (texts[texts.length - 1] === "") { texts.pop(); }
      pre.textContent = "";
      texts.forEach(function (text) { pre.appendChild(make("span", "line", text + "\n")); });
      pre.classList.add("split");
    }
    return pre.children;
  }
  function text(words) {
    try { return JSON.parse(words); } catch (error) { return words; }
  }
  function decoded(words) {
    try { return decodeURIComponent(words); } catch (error) { return words; }
  }
  // What a line of a listing is: an instruction, with the target of its jump or the binding that it names.
  function instruction(line, number) {
    var found = /^ {2}(\d+) (\w+) ?(.*)$/.exec(line.replace(/\n$/, ""));
    if (!found || !opcodes[found[2]]) { return null; }
    var note = / *; ([^"]*)$/.exec(found[3]);
    var operand = note ? found[3].slice(0, note.index) : found[3];
    var made = { at: Number(found[1]), op: found[2], operand: operand, to: null, name: null, owner: null };
    if (opcodes[made.op][0] === jump) { made.to = Number(operand); }
    if (/GName$/.test(made.op)) {
      made.name = text(operand);
      made.owner = 0;
    } else if (note && names[opcodes[made.op][0]]) {
      note[1].split(", ").forEach(function (part) {
        var bound = /^([^ ]+)(?: of (?:function (\d+)|(the script)))?$/.exec(part);
        if (bound && !/^\d+$|^catch$/.test(part)) {
          made.name = bound[1];
          made.owner = bound[2] ? Number(bound[2]) : bound[3] ? 0 : number;
        }
      });
    }
    return made;
  }
  // The function and its scopes that a line of the tree of scopes stands in, and the name that it binds.
  function walkScopes(file, what) {
    var pre = file.querySelector('.tab[data-tab="scopes"] pre');
    var owner = 0;
    each(pre ? lines(pre) : [], function (line) {
      var head = /^(?:[|` -]*-- )?function (\d+)( |\n)/.exec(line.textContent);
      var bound = /-- (?:param|var|let|const|function|catch|callee|arguments|this) ([^ ]+) \(/.exec(line.textContent);
      if (head) { owner = Number(head[1]); }
      what(line, owner, head || !bound ? null : bound[1]);
    });
  }

  // The number of the function that an address or an element's name ends with.
  function number(words) { return Number(/n(\d+)$/.exec(words)[1]); }
  function numberOf(link) { return number(link.getAttribute("href")); }

  // The source.
  function rows(file) { return file.querySelectorAll("table.source tr"); }
  function place(words) {
    var parts = words.split(":");
    return { line: Number(parts[0]), column: Number(parts[1]) };
  }
  function extent(link) {
    if (!link || !link.hasAttribute("data-from")) { return null; }
    return { from: place(link.getAttribute("data-from")), to: place(link.getAttribute("data-to")) };
  }
  function isBefore(one, other) { return one.line < other.line || (one.line === other.line && one.column <= other.column); }
  function range(row, from, to) {
    var node = row && row.lastChild.firstChild;
    if (!node) { return null; }
    var made = document.createRange();
    made.setStart(node, Math.min(from, node.length));
    made.setEnd(node, Math.min(to, node.length));
    return made;
  }
  function markExtent(file, link) {
    var at = extent(link);
    var all = rows(file);
    var ranges = [];
    if (!at) { return null; }
    for (var line = at.from.line; line <= at.to.line; line += 1) {
      var row = all[line - 1];
      var made = range(row, line === at.from.line ? at.from.column - 1 : 0, line === at.to.line ? at.to.column - 1 : Infinity);
      mark(row, "within");
      if (made) { ranges.push(made); }
    }
    highlight("function", ranges);
    return all[at.from.line - 1];
  }
  // The next piece of a line, and what the text behind it is: code, a comment or a template.
  function next(state, line, at) {
    var kind = state.kind === "comment" ? inComment : state.kind === "template" ? inTemplate : token;
    kind.lastIndex = at;
    var found = kind.exec(line);
    var piece = found ? found[0] : line[at];
    if (kind === inComment) {
      if (/\*\/$/.test(piece)) { state.kind = ""; }
    } else if (kind === inTemplate) {
      if (found && found[1]) { state.kind = ""; }
      if (found && found[1] && /\{$/.test(piece)) { state.open.push(state.depth); }
    } else if (piece === "/*") {
      state.kind = "comment";
    } else if (piece === "`") {
      state.kind = "template";
    } else if (piece === "{") {
      state.depth += 1;
    } else if (piece === "}" && state.open[state.open.length - 1] === state.depth) {
      state.open.pop();
      state.kind = "template";
    } else if (piece === "}") {
      state.depth -= 1;
    }
    return { text: piece, isCode: kind === token };
  }
  // Whether an identifier is the name of a property by what stands in front of it and behind it.
  function isProperty(before, behind) { return before === "." || (/^[{,]?$/.test(before) && /^\s*:/.test(behind)); }
  // The identifiers of this spelling in the source that are no names of properties, each with its place.
  function spellings(file, name) {
    var found = [];
    var state = { kind: "", depth: 0, open: [] };
    each(rows(file), function (row, index) {
      var line = row.lastChild.textContent;
      var before = "";
      for (var at = 0; at < line.length;) {
        var piece = next(state, line, at);
        var end = at + piece.text.length;
        if (piece.isCode && piece.text === name && !isProperty(before, line.slice(end, end + 40))) {
          found.push({ row: row, line: index + 1, column: at + 1, length: name.length });
        }
        if (/\S/.test(piece.text)) { before = piece.text; }
        at = end;
      }
    });
    return found;
  }
  function innermost(file, at) {
    var found = null;
    each(file.querySelectorAll(".functions a"), function (link) {
      var here = extent(link);
      if (here && isBefore(here.from, at) && isBefore(at, here.to)) { found = link; }
    });
    return found;
  }

  // Marks a binding in all panes: where it is bound, the instructions that name it, and its spellings in the source.
  function markName(file, name, owner) {
    var others = {};
    walkScopes(file, function (line, inside, bound) {
      if (bound !== name) { return; }
      if (inside === owner) {
        mark(line, "name");
      } else {
        others[inside] = true;
      }
    });
    each(file.querySelectorAll(".tab pre[id]"), function (pre) {
      var inside = number(pre.id);
      if (pre.textContent.indexOf(name) < 0 && pre.textContent.indexOf("GName") < 0) { return; }
      each(lines(pre), function (line) {
        var one = instruction(line.textContent, inside);
        if (one && one.name === name && one.owner === owner) { mark(line, "name"); }
      });
    });
    each(file.querySelectorAll("table.closed tr[data-owner]"), function (row) {
      if (Number(row.getAttribute("data-owner")) === owner && row.firstChild.textContent === name) { mark(row, "name"); }
    });
    var whole = extent(file.querySelector('.functions a[href$="n' + owner + '"]'));
    var ranges = [];
    var declared = null;
    spellings(file, name).forEach(function (one) {
      var link = innermost(file, one);
      if (!whole || !isBefore(whole.from, one) || !isBefore(one, whole.to)) { return; }
      while (link && numberOf(link) !== owner) {
        if (others[numberOf(link)]) { return; }
        var item = link.closest("ul").closest("li");
        link = item && item.querySelector("a");
      }
      mark(one.row, "has-name");
      declared = declared || one.row;
      ranges.push(range(one.row, one.column - 1, one.column - 1 + one.length));
    });
    highlight("name", ranges);
    return declared;
  }
  // Marks an instruction, the target of its jump and all that jump to it, and says what its opcode takes and gives.
  function markInstruction(file, pre, inside, at) {
    var chosen = null;
    each(lines(pre), function (line) {
      var one = instruction(line.textContent, inside);
      if (one && one.at === at) { chosen = { line: line, is: one }; }
    });
    if (!chosen) { return; }
    each(lines(pre), function (line) {
      var one = instruction(line.textContent, inside);
      if (one && one.to === at) { mark(line, "from"); }
      if (one && chosen.is.to === one.at) { mark(line, "to"); }
    });
    if (chosen.is.name !== null) { markName(file, chosen.is.name, chosen.is.owner); }
    mark(chosen.line, "on");
    var row = opcodes[chosen.is.op];
    var words = chosen.is.op + ": " + (row[0] ? "operand " + row[0] + "; " : "");
    file.querySelector(".opcode").textContent = words + "takes " + row[1] + ", gives " + row[2] + "; goes to " + row[3];
    show(file, "code");
    reveal(chosen.line);
  }
  function markFunction(file, link, id) {
    mark(link, "on");
    var code = document.getElementById(id);
    mark(code, "within");
    if (code) { code.tabIndex = 0; }
    var first = markExtent(file, link);
    walkScopes(file, function (line, inside, bound) { if (inside === numberOf(link)) { mark(line, "within"); } });
    each(file.querySelectorAll('svg a[href="#' + id + '"]'), function (box) { mark(box, "on"); });
    each(file.querySelectorAll("path.use"), function (arrow) {
      var is = [arrow.getAttribute("data-user"), arrow.getAttribute("data-owner")].indexOf(String(numberOf(link))) >= 0;
      if (is) { mark(arrow, "on"); }
    });
    return [link, first, code, file.querySelector(".tab:not(.hidden) .line.within"), file.querySelector(".tab:not(.hidden) svg a.on")];
  }

  // Shows what the page's address names: a function, an instruction or a name of it, or a line.
  function select() {
    var parts = /^#f(\d+)(?:n(\d+)(?:i(\d+)|=(.*))?|l(\d+))$/.exec(location.hash);
    var file = parts && document.getElementById("f" + parts[1]);
    if (!file) { return; }
    forget();
    file.open = true;
    if (parts[5]) {
      mark(document.getElementById("f" + parts[1] + "l" + parts[5]), "on");
      reveal(document.getElementById("f" + parts[1] + "l" + parts[5]));
      return;
    }
    var id = "f" + parts[1] + "n" + parts[2];
    var link = file.querySelector('.functions a[href="#' + id + '"]');
    if (!link) { return; }
    markFunction(file, link, id).forEach(reveal);
    if (parts[3] && document.getElementById(id)) { markInstruction(file, document.getElementById(id), Number(parts[2]), Number(parts[3])); }
    if (parts[4]) {
      reveal(markName(file, decoded(parts[4]), Number(parts[2])));
    }
  }
  function go(hash) {
    if (location.hash !== hash) { history.pushState(null, "", hash); }
    select();
  }
  // The unit of a line's text at which a pointer is.
  function caret(event) {
    if (document.caretPositionFromPoint) {
      var spot = document.caretPositionFromPoint(event.clientX, event.clientY);
      return spot ? spot.offset : 0;
    }
    var near = document.caretRangeFromPoint(event.clientX, event.clientY);
    return near ? near.startOffset : 0;
  }
  function clicked(event) {
    var link = event.target.closest('a[href^="#"]');
    var file = event.target.closest("details");
    var line = event.target.closest(".line");
    var row = event.target.closest("table.source tr");
    if (!link && !getSelection().isCollapsed) { return; }
    if (link) {
      event.preventDefault();
      go(link.getAttribute("href"));
    } else if (line && line.parentNode.id) {
      var inside = number(line.parentNode.id);
      var one = instruction(line.textContent, inside);
      go("#" + line.parentNode.id + (one ? "i" + one.at : ""));
    } else if (line) {
      walkScopes(file, function (other, owner, bound) {
        if (other === line) { go("#" + file.id + "n" + owner + (bound === null ? "" : "=" + encodeURIComponent(bound))); }
      });
    } else if (event.target.closest("table.closed tr[data-owner]")) {
      var bound = event.target.closest("tr");
      go("#" + file.id + "n" + bound.getAttribute("data-owner") + "=" + encodeURIComponent(bound.firstChild.textContent));
    } else if (row && file.classList.contains("file")) {
      var at = { line: row.rowIndex + 1, column: event.target === row.lastChild ? caret(event) + 1 : Infinity };
      var around = innermost(file, at) || file.querySelector(".functions a");
      go(around.getAttribute("href"));
    }
  }
  // The lines of a listing are made before they can be clicked; with arrows the selection goes from an instruction to the next.
  function prepare(event) {
    var pre = event.target.closest && event.target.closest(".tab pre");
    if (pre) { lines(pre); }
  }
  function moved(event) {
    var pre = event.target.closest("pre[id]");
    var step = event.key === "ArrowDown" ? 1 : event.key === "ArrowUp" ? -1 : 0;
    if (!pre || !step) { return; }
    event.preventDefault();
    var all = lines(pre);
    var at = Array.prototype.findIndex.call(all, function (line) { return line.classList.contains("on"); });
    var next = all[Math.max(at + step, 1)];
    var one = next && instruction(next.textContent, 0);
    if (one) { go("#" + pre.id + "i" + one.at); }
  }

  // The filter of functions by name: of those that have the text in it, and of those around them.
  function matches(link) { return link.textContent.replace(/^function \d+ /, "").toLowerCase().indexOf(filter.value.toLowerCase()) >= 0; }
  function narrow() {
    each(document.querySelectorAll(".functions li"), function (item) {
      item.classList.toggle("hidden", !Array.prototype.some.call(item.querySelectorAll("a"), matches));
    });
  }
  function addFilter() {
    filter = make("input", "", "");
    filter.type = "search";
    filter.placeholder = "functions by name: /";
    filter.setAttribute("aria-label", "functions by name");
    filter.addEventListener("input", narrow);
    filter.addEventListener("keydown", function (event) {
      var found = Array.prototype.find.call(document.querySelectorAll(".functions a"), matches);
      if (event.key === "Enter" && found) { go(found.getAttribute("href")); }
      if (event.key === "Escape") {
        filter.value = "";
        narrow();
        filter.blur();
      }
    });
    document.querySelector("h1").after(filter);
    document.addEventListener("keydown", function (event) {
      if (event.key === "/" && event.target !== filter) {
        event.preventDefault();
        filter.focus();
      } else {
        moved(event);
      }
    });
  }

  each(document.querySelectorAll("details.file"), addTabs);
  each(document.querySelectorAll(".tab pre"), function (pre) { pre.tabIndex = pre.id ? -1 : 0; });
  addFilter();
  document.addEventListener("click", clicked);
  document.addEventListener("mouseover", prepare);
  window.addEventListener("hashchange", select);
  window.addEventListener("popstate", select);
  select();
}());
