MODULE Lesson06;
(* COMMIT takes the first way of what is inside, and drops the others: a later failure does not come back there. *)
VAR x, y: INTEGER;
BEGIN
  COMMIT SOME x := 1 TO 10 DO x * x > 10 END END;
  WRITELN("x = ", x);
  EITHER y := x ORELSE y := x + 1 END;
  WRITELN("y = ", y);
  y = 5
END Lesson06.
