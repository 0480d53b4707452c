function* f() {}
