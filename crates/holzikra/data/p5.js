class A { f() {} }
