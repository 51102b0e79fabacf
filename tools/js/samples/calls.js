f(); f(a, b); f(...a, b, ...c); f()(); (f)(); (0, f)(); (() => {})(); (function () {})(); (function () {}());
new F; new F(); new F(a, ...b); new a.b.F; new (a())(); new (a().b)(); new (f)(); new new F()(); new F().a; (new F).a;
eval('1'); (0, eval)('2');
