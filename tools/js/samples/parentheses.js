(a); ((a)); ((a), (b)); (a.b).c; (a)(b); (a)`b`; new (a); ((a))++; delete (a.b); typeof (a);
({}); (function () {}); (class {}); (let)[0]; ({}).a = 1; ({} = a);
[(a), ...(b)]; ({ a: (b), ...(c), [(d)]: 1 }); `${(a)}`; (async () => {})(); () => (a); (yield_);
[(a)] = b; [(a.b), ...(c)] = d; ({ a: (b), c: (d.e) = 1 } = f);
