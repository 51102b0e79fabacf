'use \x73trict';
"use strict";
'other\
one';
function inner() { 'use strict'; "more \u0061"; return 'no directive'; }
let arrow = () => { "use strict" };
('use strict');
'late';
