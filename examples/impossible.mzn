/* Three numbers cannot all be greater than the next one round the table: the program says that no assignment
   meets the model. */
var 1..20: a;
var 1..20: b;
var 1..20: c;
constraint a > b;
constraint b > c;
constraint c > a;
solve satisfy
