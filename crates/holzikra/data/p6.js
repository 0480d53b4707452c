for (let x of y) f(x);
