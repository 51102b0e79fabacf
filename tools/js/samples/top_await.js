let a = await b;
for await (const c of await d) use(await c);
export { a };
