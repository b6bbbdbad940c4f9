MODULE BinPack;
(* Reads the size of a bin and then the sizes of parcels (at most 30), largest first; packs them into as few bins as can
   be. *)
VAR
  size: ARRAY [1..30] OF INTEGER;
  bin: ARRAY [1..30] OF INTEGER;      (* the bin of each parcel *)
  room: ARRAY [1..30] OF INTEGER;     (* what is left in each bin *)
  capacity, n, i, b, bins, total: INTEGER;

PROCEDURE Pack(k, opened, left: INTEGER);
(* `left`: what may still be wasted *)
VAR b, most: INTEGER;
BEGIN
  IF k <= n THEN
    most := opened + 1;
    IF most > bins THEN most := bins END;
    SOME b := 1 TO most DO
      room[b] >= size[k];
      room[b] := room[b] - size[k];
      bin[k] := b;
      IF (k < n) AND (room[b] < size[n]) THEN
        left >= room[b];
        IF b > opened THEN Pack(k + 1, b, left - room[b]) ELSE Pack(k + 1, opened, left - room[b]) END
      ELSIF b > opened THEN Pack(k + 1, b, left)
      ELSE Pack(k + 1, opened, left)
      END
    END
  END
END Pack;

BEGIN
  READ(capacity);
  n := 0; total := 0;
  WHILE (READ(i)) DO n := n + 1; size[n] := i; total := total + i END;
  FOR b := 1 TO n DO room[b] := capacity END;
  COMMIT
    SOME bins := (total + capacity - 1) DIV capacity TO n DO
      Pack(1, 0, bins * capacity - total)
    END
  END;
  WRITELN(bins, " bins");
  FOR b := 1 TO bins DO
    WRITE(b, ":");
    FOR i := 1 TO n DO IF bin[i] = b THEN WRITE(" ", size[i]) END END;
    WRITELN
  END
END BinPack.
