MODULE Lesson07;
(* NOT succeeds where what is inside has no way.
   A test in the place of a value is TRUE in the memory of its first way, else FALSE. *)
VAR x: INTEGER; found: BOOLEAN;
BEGIN
  x := 5;
  NOT (x > 9);
  WRITELN("x is not above 9");
  found := (SOME x := 6 TO 9 DO x MOD 4 = 0 END);
  WRITELN(found, " ", x);
  found := NOT (x = 9);
  WRITELN(found, " ", x);
  IF (x > 5; x < 8) THEN WRITELN("between") ELSE WRITELN("not between") END
END Lesson07.
