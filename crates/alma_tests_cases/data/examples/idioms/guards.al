MODULE Guards;
(* A test before statements is a guard in IF, and a choice in EITHER: what fails behind an IF does not come back to
   ELSE, and behind EITHER it goes on to ORELSE. *)
VAR s, i: INTEGER;

PROCEDURE Chosen(n: INTEGER; VAR sign: INTEGER);
BEGIN EITHER n < 0; sign := -1 ORELSE sign := 1 END END Chosen;

PROCEDURE Guarded(n: INTEGER; VAR sign: INTEGER);
BEGIN IF n < 0 THEN sign := -1 ELSE sign := 1 END END Guarded;

BEGIN
  FORALL Chosen(-5, s) DO WRITE(s, " ") END;
  WRITELN("by EITHER");
  FORALL (s = -1) OR (s = 1) DO WRITE(s, " ") END;
  WRITELN("by OR");
  FORALL Guarded(-5, s) DO WRITE(s, " ") END;
  WRITELN("by IF");
  IF (SOME i := 1 TO 3 DO TRUE END; i = 2) THEN WRITELN("the test stands in the condition: ", i) END;
  NOT (IF (SOME i := 1 TO 3 DO TRUE END) THEN i = 2 END);
  WRITELN("behind THEN i is 1 for good")
END Guards.
