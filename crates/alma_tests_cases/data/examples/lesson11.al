MODULE Lesson11;
(* READ takes a number or a byte of the input, and fails where there is none.
   A branch that fails gives the input back. *)
VAR n, sum: INTEGER;
BEGIN
  sum := 0;
  WHILE (READ(n)) DO sum := sum + n END;
  WRITELN(sum)
END Lesson11.
