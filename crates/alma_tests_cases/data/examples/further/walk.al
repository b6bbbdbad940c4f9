MODULE Walk;
(* A number whose square is 9, sought from 1 upwards; each try is told. *)
VAR x: INTEGER;
BEGIN
  SOME x := 1 TO 5 DO WRITE(x); x * x = 9 END;
  WRITE(" found")
END Walk.
