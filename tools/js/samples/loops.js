while (a) b;
do a; while (b)
do { a; } while (b);
for (;;) break;
for (var a = 1, b = 2; a < b; a++) { continue; }
for (let a = 0; ;) break;
for (a = (b in c); d; ) e;
for (const a = [(b in c)]; ;) break;
