export let a = 1, b;
export const { c, d: [e] } = f;
export var g;
export function h() {}
export async function* i() {}
export class J {}
export {};
export { a as k, b as default, c as 'quoted name', x, x as y };
let x;
export * from 'l';
export * as m from 'n';
export * as 'quoted' from 'o';
export { p, q as r, default as s, 'quoted name' as t, 'u' } from 'v';
export {} from 'w';
