typeof(a); void(0); delete(a.b); a in(b); a instanceof(b); throw_(a); if(a)b;else(c);
do(a);while(b); return_; for(a of(b)); for(a in(b)); case_: a; var{b}=c; let[d]=e; new(F); typeof/a/; a/ /b/.c;
