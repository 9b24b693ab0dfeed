# Two products on one machine: in each period it makes one of them, after a set-up.
set products := {"bread", "cake"};
param periods := 6;
param demand{p in products, t in 1..periods} := 5 + (7*t) mod 11;
param most := 100;

var make{products, 1..periods} >= 0, integer;
var stock{products, 0..periods} >= 0;
var setup{products, 1..periods} binary;

minimize cost: sum{p in products, t in 1..periods} (make[p,t] + stock[p,t] + 30*setup[p,t]);

balance{p in products, t in 1..periods}: stock[p,t-1] + make[p,t] - stock[p,t] = demand[p,t];
ready{p in products, t in 1..periods}: make[p,t] <= most*setup[p,t];
one{t in 1..periods}: sum{p in products} setup[p,t] <= 1;
begin{p in products}: stock[p,0] = 20;

end;
