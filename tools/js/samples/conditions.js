a ? b : c;
a ? b ? c : d : e ? f : g;
(a ? b : c) ? d : e;
a ? (b = c) : (d => e);
if (a) b; else if (c) d; else { e; }
if (a) { if (b) c; } else d;
if (a) ; else ;
