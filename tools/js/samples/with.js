with (a) b;
with (a, c) { with (d) e(); }
