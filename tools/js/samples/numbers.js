use(0, 1.5, .5, 5., 1e3, 1_000, 0xff, 0o17, 0b101, 017, 089, 12n, 0xfn, 1_0n);
use(1 .toString(), 1..toString(), 1.5.toFixed(), 1e5.toFixed(), 0xf.valueOf(), 1n.valueOf());
