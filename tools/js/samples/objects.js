let value = {
  plain: 1, 'quoted key': 2, "double": 3, 42: 4, 0x2A: 5, 10n: 6, [computed + 1]: 7,
  shorthand, ...spread, method() { return 1; }, async soon() {}, *many() { yield; }, async *stream() {},
  get size() { return 1; }, set size(to) { to; }, get [computed]() {}, set 'text'([part] = []) {},
  get: 1, set: 2, async: 3, static: 4, __proto__: null,
};
let { get, set } = { get, set }, none = {};
