% Three shifts of a day, in hours from midnight: each begins when the one before it has ended, the second has a
% break of one hour before it, and all are over by 22. The least solution begins each shift as early as it can.
var 6..22: morning;
var 6..22: noon;
var 6..22: evening;
constraint morning + 5 + 1 <= noon;
constraint noon + 4 <= evening;
constraint evening + 5 <= 22;
solve satisfy;
