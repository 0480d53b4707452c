(function () {
  var count = 0;
  const names = ["a", "b"];
  function next() { return ++count; }
  outer: for (var k in names) {
    switch (names[k]) {
      case "a": continue outer;
      default: next();
    }
  }
  window.app = { get size() { return count; }, next: next };
})();
