MODULE Account;
(* All or nothing: an order of several payments is a condition. Where one of them cannot be made, none is, and the
   input stands where it was. *)
CONST N = 3;
VAR balance: ARRAY [1..N] OF INTEGER; from, to, amount, count, i: INTEGER;

PROCEDURE Pay;
BEGIN
  READ(from, to, amount);
  balance[from] >= amount;
  balance[from] := balance[from] - amount; balance[to] := balance[to] + amount
END Pay;

BEGIN
  FOR i := 1 TO N DO balance[i] := 100 END;
  WHILE (READ(count)) DO
    IF (FOR i := 1 TO count DO Pay END) THEN WRITE("done:   ")
    ELSE
      FOR i := 1 TO count DO READ(from, to, amount) END;
      WRITE("refused:")
    END;
    FOR i := 1 TO N DO WRITE(" ", balance[i]) END;
    WRITELN
  END
END Account.
