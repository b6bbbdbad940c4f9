MODULE Early;
(* The number of a lock: all tests at the end, and each right behind the choice that decides it. *)
VAR a, b, c, d: INTEGER;

PROCEDURE Late(VAR a, b, c, d: INTEGER);
BEGIN
  SOME a := 0 TO 9 DO SOME b := 0 TO 9 DO SOME c := 0 TO 9 DO SOME d := 0 TO 9 DO
    a + b = 12; b - c = 5; c * d = 8
  END END END END
END Late;

PROCEDURE Early(VAR a, b, c, d: INTEGER);
BEGIN
  SOME a := 0 TO 9 DO
    SOME b := 0 TO 9 DO
      a + b = 12;
      SOME c := 0 TO 9 DO
        b - c = 5;
        SOME d := 0 TO 9 DO c * d = 8 END
      END
    END
  END
END Early;

BEGIN
  FORALL Late(a, b, c, d) DO WRITE(a, b, c, d, " ") END;
  WRITELN("late");
  FORALL Early(a, b, c, d) DO WRITE(a, b, c, d, " ") END;
  WRITELN("early")
END Early.
