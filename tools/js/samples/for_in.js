for (var a in b) c;
for (let a in b, c) d;
for (const [a] in b) ;
for (a in b) ;
for (a.b in c) ;
for ((a) in b) ;
for ({ a, b: c } in d) ;
for (var e = 1 in f) ;
