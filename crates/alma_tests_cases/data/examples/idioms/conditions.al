MODULE Conditions;
(* A statement as a condition stands in parentheses. The condition takes the first way and keeps what it set; where it
   has none, nothing of it stays. *)
VAR i, n: INTEGER; found: BOOLEAN;
BEGIN
  IF (SOME i := 1 TO 9 DO i * i = 49 END) THEN WRITELN("the root is ", i) END;
  found := (SOME i := 1 TO 9 DO i * i = 50 END);
  WRITELN(found, ", and i is ", i);
  n := 1;
  WHILE (n * n < 50; EITHER n MOD 2 = 1 ORELSE n < 4 END) DO n := n + 1 END;
  IF (n > 3; n < 9) THEN WRITELN(n, " is between") END
END Conditions.
