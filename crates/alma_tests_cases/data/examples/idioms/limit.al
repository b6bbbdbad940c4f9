MODULE Limit;
(* Counting with a limit: the second part of a FORALL cannot stop the first, so each search looks for one more, behind
   the last. *)
VAR n, last, count, a, b, c, d: INTEGER; more: BOOLEAN;

PROCEDURE Squares(n: INTEGER; VAR a, b: INTEGER);
BEGIN SOME a := 1 TO 9 DO SOME b := a TO 9 DO a * a + b * b = n END END END Squares;

BEGIN
  last := 0; count := 0; more := TRUE;
  WHILE more AND (count < 3) DO
    more := FALSE;
    FORALL COMMIT SOME n := last + 1 TO 200 DO Squares(n, a, b); Squares(n, c, d); a < c END END DO
      last := n; count := count + 1; more := TRUE;
      WRITELN(n, " = ", a, "*", a, " + ", b, "*", b, " = ", c, "*", c, " + ", d, "*", d)
    END
  END
END Limit.
