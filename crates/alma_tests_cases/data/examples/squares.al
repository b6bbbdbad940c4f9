MODULE Squares;
(* The first five square numbers: variables, and a loop. *)
VAR i: INTEGER;
BEGIN
  i := 1;
  WHILE i <= 5 DO WRITE(i * i, " "); i := i + 1 END;
  WRITELN
END Squares.
