let a = 1; { let a = 2; use(a); } use(a);
function outer(a, b = a) { var c = a; return function inner() { return a + c + arguments.length; }; }
try { a; } catch (a) { var a2 = a; }
