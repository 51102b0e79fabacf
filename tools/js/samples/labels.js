outer: for (;;) { inner: while (a) { if (b) break outer; else continue outer; break inner; } }
block: { break block; }
one: two: a;
async: a;
