use(-a, +a, !a, ~a, typeof a, void 0, delete a.b, - -a, + +a, -+-a, !!a, typeof typeof a, - --a, + ++a);
use(++a, --a, a++, a--, a.b++, --a[b], a+ +b, a- -b, a+ ++b, a- --b, a++ + b, a-- - b, a < !--b);
