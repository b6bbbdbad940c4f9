MODULE Lesson08;
(* A procedure returns with its choices open: a failure behind the call goes back into it.
   A function takes its first way. *)
VAR first, second, third: INTEGER;

PROCEDURE Double(n: INTEGER): INTEGER;
BEGIN RETURN 2 * n END Double;

PROCEDURE Coin(VAR value: INTEGER);
BEGIN EITHER value := 5 ORELSE value := 2 ORELSE value := 1 END END Coin;

BEGIN
  WRITELN(Double(21));
  Coin(first); Coin(second); Coin(third);
  first + second + third = 9;
  WRITELN(first, " ", second, " ", third)
END Lesson08.
