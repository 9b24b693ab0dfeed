\ Plan a day of four periods. A shift begins and ends with a period and is longer than one; each period needs people on
\ shift, or overtime. The plant must be inspected within each of six spans of periods, and who inspects it in period 2 is
\ not there for the shift's own work.

Minimize
  cost: 2 shift_1_2 + 2 shift_2_3 + 2 shift_3_4 + 3 shift_1_3 + 3 shift_2_4 + 4 shift_1_4
      + 2 overtime_1 + 2 overtime_2 + 2 overtime_3 + 2 overtime_4
      + inspect_1 + inspect_2 + inspect_3 + inspect_4

Subject To
  staff_1: shift_1_2 + shift_1_3 + shift_1_4 + overtime_1 >= 2
  staff_2: shift_1_2 + shift_2_3 + shift_1_3 + shift_2_4 + shift_1_4 + overtime_2 - inspect_2 >= 3
  staff_3: shift_2_3 + shift_3_4 + shift_1_3 + shift_2_4 + shift_1_4 + overtime_3 >= 4
  staff_4: shift_3_4 + shift_2_4 + shift_1_4 + overtime_4 >= 2
  span_1_2: inspect_1 + inspect_2 >= 1
  span_2_3: inspect_2 + inspect_3 >= 1
  span_3_4: inspect_3 + inspect_4 >= 1
  span_1_3: inspect_1 + inspect_2 + inspect_3 >= 1
  span_2_4: inspect_2 + inspect_3 + inspect_4 >= 1
  span_1_4: inspect_1 + inspect_2 + inspect_3 + inspect_4 >= 2

General
  shift_1_2 shift_2_3 shift_3_4 shift_1_3 shift_2_4 shift_1_4
  overtime_1 overtime_2 overtime_3 overtime_4 inspect_1 inspect_2 inspect_3 inspect_4

End
