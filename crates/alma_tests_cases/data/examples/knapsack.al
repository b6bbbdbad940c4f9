MODULE Knapsack;
(* What to take along when not all can be carried: FORALL goes through all that fits, and its second part, whose changes stay, keeps the
   dearest. *)
CONST N = 8; ROOM = 50;
TYPE Items = ARRAY [1..N] OF INTEGER; Choice = ARRAY [1..N] OF BOOLEAN;
VAR weight, price: Items; taken, best: Choice; room, worth, dearest, i, kept: INTEGER;

PROCEDURE Pack;
VAR i: INTEGER;
BEGIN
  FOR i := 1 TO N DO
    EITHER
      weight[i] <= room; room := room - weight[i]; worth := worth + price[i]; taken[i] := TRUE
    ORELSE
      taken[i] := FALSE
    END
  END
END Pack;

BEGIN
  FOR i := 1 TO N DO weight[i] := 5 + (i * 7) MOD 16; price[i] := 10 + (i * 37) MOD 41 END;
  room := ROOM; worth := 0; dearest := -1; kept := 0;
  FORALL Pack DO
    kept := kept + 1;
    IF worth > dearest THEN dearest := worth; best := taken END
  END;
  WRITELN(kept, " ways fit; the dearest is worth ", dearest);
  FOR i := 1 TO N DO
    IF best[i] THEN WRITELN("item ", i, ": weight ", weight[i], ", price ", price[i]) END
  END
END Knapsack.
