use(a == b, a != b, a === b, a !== b, a < b, a <= b, a > b, a >= b, a << b, a >> b, a >>> b);
use(a + b, a - b, a * b, a / b, a % b, a ** b, a | b, a ^ b, a & b, a in b, a instanceof b);
use(a || b, a && b, a ?? b, a || b && c, (a ?? b) || c, a + b * c, (a + b) * c, a - (b - c), (-a) ** b);
