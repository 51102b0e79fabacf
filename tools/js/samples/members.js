use(a.b, a['b'], a[b].c, a.b.c(), a.if, a.class.new, (a, b).c, a[b, c], a()[0](), a?.b, a.é);
