MODULE Queens;
(* Eight queens on a board, no two in one row, column or diagonal. SOME tries each row for the queen of a column; a test that fails goes
   back to the last choice. FORALL goes through all ways to place them, and counts. *)
CONST N = 8;
TYPE Board = ARRAY [1..N] OF [1..N];
VAR first, queen: Board; count, column: INTEGER;

PROCEDURE Safe(VAR queen: Board; column: INTEGER);
VAR i: INTEGER;
BEGIN
  FOR i := 1 TO column - 1 DO
    queen[i] <> queen[column];
    queen[i] - i <> queen[column] - column;
    queen[i] + i <> queen[column] + column
  END
END Safe;

PROCEDURE Place(VAR queen: Board);
VAR column, row: INTEGER;
BEGIN
  FOR column := 1 TO N DO
    SOME row := 1 TO N DO queen[column] = row; Safe(queen, column) END
  END
END Place;

BEGIN
  COMMIT Place(first) END;
  FOR column := 1 TO N DO WRITE(first[column], " ") END;
  WRITELN;
  count := 0;
  FORALL Place(queen) DO count := count + 1 END;
  WRITELN(count, " ways")
END Queens.
