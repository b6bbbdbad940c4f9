MODULE Lesson01;
(* WRITE prints its items in order, with nothing between them; WRITELN ends the line. FOR counts. *)
VAR i: INTEGER;
BEGIN
  WRITELN("Alma says hello");
  FOR i := 1 TO 3 DO WRITE(i, " ") END;
  WRITELN(2 + 3 * 4, " ", 17 DIV 5, " ", 17 MOD 5, " ", 2 < 3)
END Lesson01.
