MODULE Once;
(* FORALL COMMIT S END DO keep END: the first way of S, once, and taken back; what DO changes stays. *)
VAR a, b, c, area: INTEGER;
BEGIN
  FORALL
    COMMIT
      SOME a := 6 TO 20 DO SOME b := a TO 20 DO SOME c := b TO 30 DO a * a + b * b = c * c END END END
    END
  DO
    area := a * b DIV 2;
    WRITELN(a, " ", b, " ", c)
  END;
  WRITELN("area ", area, "; a is known: ", KNOWN(a))
END Once.
