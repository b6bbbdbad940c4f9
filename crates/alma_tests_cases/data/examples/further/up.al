MODULE Up;
(* A number that leaves 2 by 3, 3 by 5 and 2 by 7, sought from 1 upwards. *)
VAR n: INTEGER;
BEGIN
  SOME n := 1 TO 300 DO n MOD 3 = 2; n MOD 5 = 3; n MOD 7 = 2 END;
  WRITE(n)
END Up.
