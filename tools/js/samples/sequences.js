a, b, c;
for (a, b; c, d; e, f);
use((a, b), a ? (b, c) : d);
a = (b, c);
