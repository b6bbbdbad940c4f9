MODULE Precedence;
(* AND, OR and NOT bind closer than relations, and a sign is of its whole term. *)
VAR x, y: INTEGER; inside: BOOLEAN;
BEGIN
  x := 3; y := 7;
  IF (1 <= x) AND (x <= 5) THEN WRITELN("x is inside") END;
  inside := (x > 0) AND NOT (y = x);
  WRITELN(inside, " ", 2 * (-x), " ", -7 DIV 2, " ", (-7) DIV 2);
  x > 0; x < 5; y <> x;
  WRITELN("all three hold")
END Precedence.
