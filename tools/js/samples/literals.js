use(null, true, false, this, /a[/\]]+/giu, /[^\n]*?\/\/ x/, /=/.test(a), a / b / c);
