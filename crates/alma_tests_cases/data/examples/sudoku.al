MODULE Sudoku;
(* A sudoku, read from the input as 81 digits with 0 for a free field. Rows, columns and squares note which digits they have; a failing
   branch gives the notes back. alma run sudoku.al <sudoku.in *)
TYPE Nine = [0..8]; Digits = [1..9]; Notes = ARRAY Nine, Digits OF BOOLEAN;
VAR field: ARRAY Nine, Nine OF Digits; row, column, square: Notes; i, j, d: INTEGER; c: CHAR;

PROCEDURE Put(i, j, d: INTEGER);
VAR s: INTEGER;
BEGIN
  s := i DIV 3 * 3 + j DIV 3;
  NOT row[i, d]; NOT column[j, d]; NOT square[s, d];
  row[i, d] := TRUE; column[j, d] := TRUE; square[s, d] := TRUE;
  field[i, j] := d
END Put;

BEGIN
  FOR i := 0 TO 8 DO FOR d := 1 TO 9 DO row[i, d] := FALSE; column[i, d] := FALSE; square[i, d] := FALSE END END;
  FOR i := 0 TO 8 DO
    FOR j := 0 TO 8 DO
      REPEAT READ(c) UNTIL c >= "0";
      IF c > "0" THEN Put(i, j, ORD(c) - ORD("0")) END
    END
  END;
  FOR i := 0 TO 8 DO
    FOR j := 0 TO 8 DO
      IF NOT KNOWN(field[i, j]) THEN SOME d := 1 TO 9 DO Put(i, j, d) END END
    END
  END;
  FOR i := 0 TO 8 DO FOR j := 0 TO 8 DO WRITE(field[i, j]) END; WRITELN END
END Sudoku.
