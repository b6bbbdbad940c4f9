MODULE Packing;
(* Nine squares, no two alike, are packed into a rectangle without a gap: at the first free place, from the left and from below, one of the squares that are
   left must stand. The free places are those whose cells are unknown. *)
CONST WIDE = 33; HIGH = 32; COUNT = 9;
TYPE Column = [1..WIDE]; Row = [1..HIGH];
VAR side: ARRAY [1..COUNT] OF INTEGER; used: ARRAY [1..COUNT] OF BOOLEAN; owner: ARRAY Row, Column OF INTEGER; i, x, y, s: INTEGER;

PROCEDURE Cover(x, y, s: INTEGER);
VAR i, j: INTEGER;
BEGIN
  x + side[s] - 1 <= WIDE; y + side[s] - 1 <= HIGH;
  FOR i := y TO y + side[s] - 1 DO
    FOR j := x TO x + side[s] - 1 DO NOT KNOWN(owner[i, j]); owner[i, j] = s END
  END
END Cover;

BEGIN
  side[1] := 1; side[2] := 4; side[3] := 7; side[4] := 8; side[5] := 9; side[6] := 10; side[7] := 14; side[8] := 15; side[9] := 18;
  FOR i := 1 TO COUNT DO used[i] := FALSE END;
  FOR y := 1 TO HIGH DO
    FOR x := 1 TO WIDE DO
      IF NOT KNOWN(owner[y, x]) THEN
        SOME s := 1 TO COUNT DO NOT used[s]; used[s] := TRUE; Cover(x, y, s) END
      END
    END
  END;
  FOR y := HIGH TO 1 BY -1 DO FOR x := 1 TO WIDE DO WRITE(owner[y, x]) END; WRITELN END
END Packing.
