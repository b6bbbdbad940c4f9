MODULE Lesson09;
(* A MIX parameter is the caller's variable where the argument is one, and else holds its value:
   one procedure tests and generates. *)
VAR d: INTEGER;

PROCEDURE Digit(MIX x: INTEGER);
VAR i: INTEGER;
BEGIN SOME i := 0 TO 9 DO x = i END END Digit;

BEGIN
  Digit(3 + 4);
  WRITELN("7 is a digit");
  IF Digit(12) THEN WRITELN("12 is a digit") ELSE WRITELN("12 is none") END;
  Digit(d);
  WRITE(d, " ");
  d * d > 30;
  WRITELN("is the first with a square above 30")
END Lesson09.
