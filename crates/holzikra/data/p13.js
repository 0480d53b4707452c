f`a`;
