delete (x)
