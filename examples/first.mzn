% Two numbers with a sum, the first less than the second: the least solution is x = 1, y = 3.
var 1..3: x;
var 1..3: y;
constraint x + y = 4;
constraint x < y;
solve satisfy;
