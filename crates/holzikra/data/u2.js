function f() {
  g(