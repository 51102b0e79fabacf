export default class extends Base { a = 1; }
