# Send as much water as possible from the spring to the town through pipes with capacities.
# What flows into a place flows out of it, and `total` leads back from the town to the spring.

set PLACES;
set PIPES within PLACES cross PLACES;
param capacity{PIPES};

var flow{(i, j) in PIPES} >= 0, <= capacity[i, j];
var total >= 0;

maximize arriving: total;

subject to balance{p in PLACES}:
    sum{(i, p) in PIPES} flow[i, p] + (if p = 'spring' then total)
    = sum{(p, j) in PIPES} flow[p, j] + (if p = 'town' then total);

data;

set PLACES := spring, east, west, lake, town;

param: PIPES: capacity :=
    spring east  4
    spring west  5
    east   west  2
    east   lake  3
    west   lake  3
    west   town  2
    lake   town  6;

end;
