let [first, , third = 3, ...others] = [1, , 3, ...rest, 5, ,];
const empty = [], holes = [,], nested = [[[]], [,,]];
[first, others[0], others.length] = [third, first, 2];
