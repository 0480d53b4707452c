function f() { return new.target }
