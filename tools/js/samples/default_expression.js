export default (function () {})() + [a, b].length;
