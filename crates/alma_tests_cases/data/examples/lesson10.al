MODULE Lesson10;
(* FORALL makes its second part after each way of its first one.
   What the second part changes stays, what the first part changes goes. *)
VAR a, b, count: INTEGER;
BEGIN
  count := 0;
  FORALL
    SOME a := 1 TO 3 DO SOME b := 1 TO 3 DO a + b = 4 END END
  DO
    count := count + 1;
    WRITE(a, "+", b, " ")
  END;
  WRITELN(count, " ways; a is known: ", KNOWN(a))
END Lesson10.
