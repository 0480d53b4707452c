with (a) f();
