let none = () => {}, one = a => a, two = (a, b) => a + b, object = () => ({}), rest = (...a) => a;
let patterned = ({ a, b: [c] }, [d] = []) => { return a; }, deep = a => b => c => a;
let soon = async () => {}, sooner = async a => await a, soonest = async (a, b) => { await a; };
let called = async(a, b), choice = a ? (b) => c : d => e, sequence = () => (a, b);
