class Hidden {
  #field; #valued = 1; static #fixed = 2;
  #method() {} get #size() { return 1; } set #size(to) {} static #still() {} static async *#all() {}
  static get #kind() { return 1; } async #soon() {} *#many() {}
  has(other) { return #field in other && !(#method in other); }
  use() { this.#field = this.#method?.(); delete this.a?.#valued.b; return this?.#valued; }
}
