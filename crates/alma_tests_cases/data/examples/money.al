MODULE Money;
(* SEND + MORE = MONEY: each letter is another digit. The columns are added from the right, so a wrong digit is found early. A letter
   is an unknown variable; Column tests the digit below the line where it is known, and else gives it its value. *)
TYPE Digit = [0..9];
VAR used: ARRAY Digit OF BOOLEAN;
    s, e, n, d, m, o, r, y: INTEGER;
    i, found: INTEGER;

PROCEDURE Pick(VAR x: INTEGER);
(* an unused digit for x, each in turn *)
VAR k: INTEGER;
BEGIN
  SOME k := 0 TO 9 DO
    NOT used[k];
    used[k] := TRUE;
    x := k
  END
END Pick;

PROCEDURE Column(a, b, carry: INTEGER; VAR sum: INTEGER; VAR out: INTEGER);
(* the digit below the line is known, or is picked if it is free *)
VAR total: INTEGER;
BEGIN
  total := a + b + carry;
  out := total DIV 10;
  IF KNOWN(sum) THEN
    sum = total MOD 10
  ELSE
    NOT used[total MOD 10];
    used[total MOD 10] := TRUE;
    sum := total MOD 10
  END
END Column;

PROCEDURE Solve;
VAR c1, c2, c3, c4: INTEGER;
BEGIN
  Pick(d); Pick(e);
  Column(d, e, 0, y, c1);
  Pick(n); Pick(r);
  Column(n, r, c1, e, c2);
  Pick(o);
  Column(e, o, c2, n, c3);
  Pick(s); Pick(m); s > 0; m > 0;
  Column(s, m, c3, o, c4);
  c4 = m
END Solve;

BEGIN
  FOR i := 0 TO 9 DO used[i] := FALSE END;
  found := 0;
  FORALL Solve DO
    found := found + 1;
    WRITELN("  ", s, e, n, d);
    WRITELN("+ ", m, o, r, e);
    WRITELN("=", m, o, n, e, y)
  END;
  WRITELN(found, " solution")
END Money.
