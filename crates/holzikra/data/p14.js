x = a?.b;
