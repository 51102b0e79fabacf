for (var a of b) c;
for (let a of b) ;
for (const { a, b = 1 } of c) ;
for (a of b) ;
for (a[b] of c) ;
for ([a, ...b] of c) ;
for (of of of) ;
for ((async) of b) ;
async () => { for await (async of b) ; };
