MODULE Till;
(* Nine, in three coins. What has a heading and no body is a routine of another file. *)
VAR first, second, third: INTEGER;

PROCEDURE Coin(VAR value: INTEGER); END Coin;
PROCEDURE Taken(): INTEGER; END Taken;

BEGIN
  Coin(first); Coin(second); Coin(third);
  first + second + third = 9;
  WRITELN(first, " ", second, " ", third, ", ", Taken(), " coins")
END Till.
