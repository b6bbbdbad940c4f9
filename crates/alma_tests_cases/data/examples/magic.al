MODULE Magic;
(* A square of three by three with the numbers from 1 to 9, in which all rows, columns and diagonals have one sum. FORALL counts them. *)
TYPE Three = [1..3]; Square = ARRAY Three, Three OF [1..9];
VAR first, a: Square; count, i, j: INTEGER;

PROCEDURE Fill(VAR a: Square; i, j: INTEGER);
VAR n, k, l: INTEGER;
BEGIN
  SOME n := 1 TO 9 DO
    FOR k := 1 TO 3 DO FOR l := 1 TO 3 DO NOT KNOWN(a[k, l]) OR (a[k, l] <> n) END END;
    a[i, j] = n
  END
END Fill;

PROCEDURE Magic(VAR a: Square);
BEGIN
  Fill(a, 1, 1); Fill(a, 1, 2); Fill(a, 1, 3); a[1, 1] + a[1, 2] + a[1, 3] = 15;
  Fill(a, 2, 1); Fill(a, 3, 1); a[1, 1] + a[2, 1] + a[3, 1] = 15;
  Fill(a, 2, 2); a[1, 3] + a[2, 2] + a[3, 1] = 15;
  Fill(a, 3, 3); a[1, 1] + a[2, 2] + a[3, 3] = 15;
  Fill(a, 2, 3); a[2, 1] + a[2, 2] + a[2, 3] = 15; a[1, 3] + a[2, 3] + a[3, 3] = 15;
  Fill(a, 3, 2); a[1, 2] + a[2, 2] + a[3, 2] = 15; a[3, 1] + a[3, 2] + a[3, 3] = 15
END Magic;

BEGIN
  COMMIT Magic(first) END;
  FOR i := 1 TO 3 DO FOR j := 1 TO 3 DO WRITE(first[i, j], " ") END; WRITELN END;
  count := 0;
  FORALL Magic(a) DO count := count + 1 END;
  WRITELN(count, " squares")
END Magic.
