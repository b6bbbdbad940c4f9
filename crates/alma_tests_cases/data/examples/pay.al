MODULE Pay;
(* Nine, in three coins. Where the sum fails, the last call of Coin goes on with its next branch. *)
VAR first, second, third: INTEGER;

PROCEDURE Coin(VAR value: INTEGER);
BEGIN
  EITHER value := 5 ORELSE value := 2 ORELSE value := 1 END
END Coin;

BEGIN
  Coin(first); Coin(second); Coin(third);
  first + second + third = 9;
  WRITELN(first, " ", second, " ", third)
END Pay.
