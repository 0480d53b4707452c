let {a, b} = o;
