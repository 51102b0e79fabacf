a = b; a += b; a -= b; a *= b; a /= b; a %= b; a <<= b; a >>= b; a >>>= b;
a |= b; a ^= b; a &= b; a **= b; a &&= b; a ||= b; a ??= b;
a = b = c; a.b = c; a[b] = c; (a) = b; (a.b) = c; ((a)) += 1;
[a, b] = [b, a]; ({ a, b } = c);
