({__proto__: 1, '__proto__': 2})
