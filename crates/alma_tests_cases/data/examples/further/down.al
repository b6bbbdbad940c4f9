MODULE Down;
(* The same, sought from 300 downwards. *)
VAR n, from: INTEGER;
BEGIN
  SOME from := 0 TO 299 DO
    n := 300 - from; n MOD 3 = 2; n MOD 5 = 3; n MOD 7 = 2
  END;
  WRITE(n)
END Down.
