MODULE Knight;
(* A knight goes over a board of five by five, and comes to each field once. A field that it has not come to is unknown: the equation
   board[x, y] = move is at once the test that the field is free and the note that it no longer is. *)
TYPE Side = [1..5];
VAR board: ARRAY Side, Side OF INTEGER; move, x, y, dx, dy, i, j: INTEGER;

PROCEDURE Jump(VAR dx, dy: INTEGER);
VAR a, b: INTEGER;
BEGIN
  EITHER a := 1; b := 2 ORELSE a := 2; b := 1 END;
  EITHER dx := a ORELSE dx := -a END;
  EITHER dy := b ORELSE dy := -b END
END Jump;

BEGIN
  x := 1; y := 1; board[x, y] = 1;
  FOR move := 2 TO 25 DO
    Jump(dx, dy);
    x := x + dx; 1 <= x; x <= 5;
    y := y + dy; 1 <= y; y <= 5;
    NOT KNOWN(board[x, y]);
    board[x, y] = move
  END;
  FOR i := 1 TO 5 DO
    FOR j := 1 TO 5 DO
      IF board[i, j] < 10 THEN WRITE(" ") END;
      WRITE(board[i, j], " ")
    END;
    WRITELN
  END
END Knight.
