class Empty {}
class Base extends Other { constructor(a, b = 1) { super(a, ...b); this.a = super.b; super.c(); super['d']; } ; }
class Members extends (a, b) {
  method() {} static still() {} async soon() {} *many() {} async *stream() {} static async *all() {}
  get size() { return 1; } set size(to) {} static get kind() { return 1; } static set kind(to) {}
  'quoted'() {} 42() {} 1n() {} [computed]() {} static [computed]() {} get() {} set() {} static() {} async() {}
  field; valued = 1; static fixed = 2; 'text' = 3; 7 = 4; [computed] = 5; static; get; set; async; static static = 6;
  static { this.a = 1; let b; } static {}
  ;
}
let named = class Own { a = Own; }, nameless = class extends named {}, constructed = class { 'constructor'() {} };
