export default async function* named() { named; }
