# Oil and gas flow through the same pipes at least cost. What flows into a place, less what flows out of it, is what is drawn there, and
# what a pipe carries of both goods together is bounded. The data are those of four places and eight pipes.

set GOODS := {"oil", "gas"};
set PLACES;
set PIPES;
param tail{PIPES}, symbolic, in PLACES;
param head{PIPES}, symbolic, in PLACES;
param capacity{PIPES}, integer, default 9;
param drawn{GOODS, PLACES}, integer, default 0;

var flow{GOODS, PIPES} >= 0;

minimize total: sum{g in GOODS, i in PIPES} flow[g, i];

s.t. balance{g in GOODS, p in PLACES}:
    sum{i in PIPES: head[i] = p} flow[g, i] - sum{i in PIPES: tail[i] = p} flow[g, i] = drawn[g, p];

s.t. load{i in PIPES}: sum{g in GOODS} flow[g, i] <= capacity[i];

data;

set PLACES := a, b, c, d;

param: PIPES: tail head :=
    ab a b
    bc b c
    cd c d
    da d a
    ac a c
    bd b d
    cb c b
    db d b;

param drawn [oil, *] a -5, c 5 [gas, *] b -4, d 4;

end;
