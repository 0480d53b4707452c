x = 1n;
