MODULE Kept;
(* The fewest coins for an amount. A cell of the table that is known is not computed again. *)
CONST Coins = 4; Most = 200;
VAR coin: ARRAY [1..Coins] OF INTEGER; fewest: ARRAY [0..Most] OF INTEGER; computed: INTEGER;

PROCEDURE Fewest(n: INTEGER): INTEGER;
VAR i, count, best: INTEGER;
BEGIN
  IF NOT KNOWN(fewest[n]) THEN
    best := n;
    FOR i := 2 TO Coins DO
      IF coin[i] <= n THEN
        count := Fewest(n - coin[i]) + 1;
        IF count < best THEN best := count END
      END
    END;
    fewest[n] := best; computed := computed + 1
  END;
  RETURN fewest[n]
END Fewest;

BEGIN
  coin[1] := 1; coin[2] := 7; coin[3] := 10; coin[4] := 25; computed := 0;
  WRITELN(Fewest(14), " ", Fewest(43), " ", Fewest(199), ", and ", computed, " amounts were computed");
  NOT (Fewest(200) = 1);
  WRITELN("199 is kept: ", KNOWN(fewest[199]), ", 200 is kept: ", KNOWN(fewest[200]))
END Kept.
