MODULE Lesson12;
(* A procedure inside another uses its variables.
   Its choices are retried like all others, and its frames come back with them. *)
PROCEDURE Zigzag(n: INTEGER);
VAR way: ARRAY [1..9] OF INTEGER; i: INTEGER;

  PROCEDURE Step(k: INTEGER);
  BEGIN
    IF k <= n THEN
      EITHER way[k] := 0 ORELSE way[k] := 1 END;
      IF k > 1 THEN way[k] <> way[k - 1] END;
      Step(k + 1)
    END
  END Step;

BEGIN
  Step(1);
  FOR i := 1 TO n DO WRITE(way[i]) END;
  WRITELN;
  way[1] = 1;
  WRITELN("the program went back into calls that had returned")
END Zigzag;

BEGIN
  Zigzag(4)
END Lesson12.
