MODULE Lesson04;
(* EITHER takes its first branch. Where something behind it fails, the program comes back and takes the next one. *)
VAR x, y: INTEGER;
BEGIN
  EITHER x := 1 ORELSE x := 2 ORELSE x := 3 END;
  EITHER y := 5 ORELSE y := 4 END;
  WRITE(x, "+", y, " ");
  x + y = 7;
  WRITELN("found")
END Lesson04.
