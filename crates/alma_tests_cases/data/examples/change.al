MODULE Change;
(* All ways to give change in coins of 50, 20, 10, 5, 2 and 1: SOME tries each number of a coin, the rest is for the smaller ones. FORALL
   goes through the ways; what its second part changes stays: the count of the ways, and the way with the fewest coins. *)
TYPE Coins = ARRAY [1..6] OF INTEGER;
VAR value, number, best: Coins; ways, fewest, rest, used, i: INTEGER;

PROCEDURE Give(VAR rest, used: INTEGER);
VAR i, n: INTEGER;
BEGIN
  FOR i := 1 TO 5 DO
    SOME n := 0 TO rest DIV value[i] DO number[i] := n; rest := rest - n * value[i]; used := used + n END
  END;
  number[6] := rest; used := used + rest
END Give;

BEGIN
  value[1] := 50; value[2] := 20; value[3] := 10; value[4] := 5; value[5] := 2; value[6] := 1;
  ways := 0; fewest := 1000; rest := 86; used := 0;
  FORALL Give(rest, used) DO
    ways := ways + 1;
    IF used < fewest THEN fewest := used; best := number END
  END;
  WRITELN(ways, " ways");
  FOR i := 1 TO 6 DO IF best[i] > 0 THEN WRITE(best[i], " of ", value[i], "  ") END END; WRITELN
END Change.
