MODULE Pairs;
VAR x, y: INTEGER;
BEGIN
  SOME x := 1 TO 3 DO x <> 2 END
END Pairs.
