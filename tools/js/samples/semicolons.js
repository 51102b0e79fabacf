let a = 1
let b = a
++b
const c = function () { return
  a }
;[a, b] = [b, a]
a = b /re/g.c
do a; while (b) c
