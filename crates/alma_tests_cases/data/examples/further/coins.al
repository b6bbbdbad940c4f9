MODULE Coins;
(* What coins there are, and how many were taken. *)
VAR taken: INTEGER;

PROCEDURE Coin(VAR value: INTEGER);
BEGIN
  EITHER value := 5 ORELSE value := 2 ORELSE value := 1 END;
  taken := taken + 1
END Coin;

PROCEDURE Taken(): INTEGER;
BEGIN
  RETURN taken
END Taken;

BEGIN
  taken := 0
END Coins.
