var a, b = 1, [c] = d, { e } = f;
let g, h = 2;
const i = 3, j = 4;
var let_ = 1, of, async, get, $, _, ünï = 5, \u0061bc = 6, 𠮷 = 7;
