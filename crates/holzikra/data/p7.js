try { f() } finally { g() }
