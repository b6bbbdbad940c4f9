MODULE Four;
(* Four queens on a board of four by four, no two in one row or diagonal. It prints nothing. *)
TYPE Board = ARRAY [1..4] OF [1..4];
VAR queen: Board;

PROCEDURE Place(VAR queen: Board);
VAR column, row, i: INTEGER;
BEGIN
  FOR column := 1 TO 4 DO
    SOME row := 1 TO 4 DO
      FOR i := 1 TO column - 1 DO
        queen[i] <> row; queen[i] - i <> row - column; queen[i] + i <> row + column
      END;
      queen[column] := row
    END
  END
END Place;

BEGIN
  Place(queen)
END Four.
