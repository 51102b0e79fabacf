{ using a = b(), c = null; }
async function soon() { await using a = b(); for (using c of d) ; for await (await using e of f) ; for (await using g of h) ; }
for (const using of a) ;
using(1); var using = 2;
