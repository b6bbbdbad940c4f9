MODULE Lesson13;
(* A fault ends the program at once, with its name and its line: it is no failure, and no other way is tried. *)
VAR a: ARRAY [1..3] OF INTEGER; i: INTEGER;
BEGIN
  FOR i := 1 TO 4 DO
    a[i] := i * i;
    WRITE(a[i], " ")
  END
END Lesson13.
