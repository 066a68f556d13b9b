% Coins of 1, 2 and 5 that make 13 with no more than five coins; a sum takes a coin's value by repeating its name.
var 0..5: ones;
var 0..5: twos;
var 0..5: fives;
constraint ones + twos + twos + fives + fives + fives + fives + fives = 13;
constraint ones + twos + fives <= 5;
solve satisfy;
