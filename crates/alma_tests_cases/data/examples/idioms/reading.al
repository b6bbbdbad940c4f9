MODULE Reading;
(* Reads numbers to the end of the input: there READ fails, and the loop ends. *)
VAR n, count, sum: INTEGER;
BEGIN
  count := 0; sum := 0;
  WHILE (READ(n)) DO count := count + 1; sum := sum + n END;
  WRITELN(count, " numbers, ", sum, " in all")
END Reading.
