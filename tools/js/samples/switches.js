switch (a) {}
switch (a) { case 1: case 'b': c; break; default: d; { e; } case f, g: }
switch (a) { default: let b = 1; function c() {} class D {} }
