* Pack a rucksack: the things weigh at most 9 together and fill at most 6 pockets, each of which holds half a thing.
* Of tent, tarp and hammock no two are taken together. The greatest value is asked for.
NAME knapsack
ROWS
 N value
 L weight
 L pockets
 L tent_or_tarp
 L tarp_or_hammock
 L tent_or_hammock
COLUMNS
 tent value 9 weight 5
 tent pockets 2 tent_or_tarp 1
 tent tent_or_hammock 1
 tarp value 8 weight 2
 tarp pockets 2 tent_or_tarp 1
 tarp tarp_or_hammock 1
 hammock value 7 weight 3
 hammock pockets 2 tarp_or_hammock 1
 hammock tent_or_hammock 1
 stove value 8 weight 4
 stove pockets 2
RHS
 limits weight 9 pockets 6
 limits tent_or_tarp 1 tarp_or_hammock 1
 limits tent_or_hammock 1
BOUNDS
 BV kinds tent
 BV kinds tarp
 BV kinds hammock
 BV kinds stove
ENDATA
