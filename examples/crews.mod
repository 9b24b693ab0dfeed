# Crews work some hours in a row. Each hour needs its crews, those of one skill are scarce, and so are all of them and their pay.
param hours := 8;
set shifts := {begin in 0..hours-1, length in 2..4: begin + length <= hours};

var crew{shifts} integer >= 0;

minimize cost: sum{(begin, length) in shifts} (2 + length) * crew[begin,length];

period{hour in 0..hours-1}:
  sum{(begin, length) in shifts: begin <= hour and hour < begin + length} crew[begin,length] >= 2 + hour mod 3;
skill{k in 0..3}: sum{(begin, length) in shifts: (begin + length * length) mod 4 = k} crew[begin,length] <= 5;
total: sum{(begin, length) in shifts} crew[begin,length] <= 12;
pay: sum{(begin, length) in shifts} length * crew[begin,length] <= 40;

end;
