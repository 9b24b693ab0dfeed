# Four wards are staffed for a week, hour by hour, by shifts of six and of eight hours in a row. How many nurses begin a shift of a kind
# in an hour is bounded, by a row each, as many tools write it. With these the model has more than 1,000 rows.

set WARDS := {"north", "south", "east", "west"};
set HOURS := 1..168;
set LENGTHS := {6, 8};

param need{w in WARDS, h in HOURS} := if h mod 24 > 6 and w <> "west" then 3 else 2;

var begin{w in WARDS, h in HOURS, l in LENGTHS: h + l <= 169} >= 0;

minimize hours: sum{w in WARDS, h in HOURS, l in LENGTHS: h + l <= 169} l * begin[w,h,l];

s.t. staff{w in WARDS, h in HOURS}:
  sum{b in HOURS, l in LENGTHS: b <= h and h < b + l and b + l <= 169} begin[w,b,l] >= need[w,h];

s.t. most{w in WARDS, h in HOURS, l in LENGTHS: h + l <= 169}: begin[w,h,l] <= 3;

end;
