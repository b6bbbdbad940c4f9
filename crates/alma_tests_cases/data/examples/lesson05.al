MODULE Lesson05;
(* SOME is a choice among numbers: it takes the first for which its body and all that follows succeeds. *)
VAR wide, high: INTEGER;
BEGIN
  SOME wide := 1 TO 6 DO
    SOME high := 1 TO wide DO wide * high = 6 END
  END;
  WRITELN(wide, " by ", high)
END Lesson05.
