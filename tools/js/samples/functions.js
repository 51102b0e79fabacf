function plain(a, b = 1, { c, d: [e] }, ...f) { return a; }
function* generator() { yield; yield 1; yield* other(); let a = yield b; (yield).c; }
async function soon() { await a; return await (await b).c; }
async function* stream() { for await (const a of b) yield await a; for await (c.d of e); }
let named = function own() { own(); }, nameless = function () { new.target; }, many = function* own() {}, both = async function* () {};
let sooner = async function own() {};
function returns() { return; }
