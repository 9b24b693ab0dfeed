* Assign three workers to three jobs at the least cost.
* Each worker does one job, and each job is done by one worker.
NAME          ASSIGN
ROWS
 N  COST
 E  ANN
 E  BOB
 E  CAT
 E  CUT
 E  SEW
 E  IRON
COLUMNS
    ANN-CUT   COST         7.0   ANN          1.0
    ANN-CUT   CUT          1.0
    ANN-SEW   COST         4.0   ANN          1.0
    ANN-SEW   SEW          1.0
    ANN-IRON  COST         3.0   ANN          1.0
    ANN-IRON  IRON         1.0
    BOB-CUT   COST         6.0   BOB          1.0
    BOB-CUT   CUT          1.0
    BOB-SEW   COST         8.0   BOB          1.0
    BOB-SEW   SEW          1.0
    BOB-IRON  COST         5.0   BOB          1.0
    BOB-IRON  IRON         1.0
    CAT-CUT   COST         9.0   CAT          1.0
    CAT-CUT   CUT          1.0
    CAT-SEW   COST         4.0   CAT          1.0
    CAT-SEW   SEW          1.0
    CAT-IRON  COST         4.0   CAT          1.0
    CAT-IRON  IRON         1.0
RHS
    RHS       ANN          1.0   BOB          1.0
    RHS       CAT          1.0   CUT          1.0
    RHS       SEW          1.0   IRON         1.0
ENDATA
