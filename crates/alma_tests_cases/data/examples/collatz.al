MODULE Collatz;
(* The start below a bound from which halving even numbers, and tripling odd ones and adding one, takes longest to reach 1. *)
VAR start, n, length, best, longest: INTEGER;
BEGIN
  start := 1; longest := -1;
  REPEAT
    n := start; length := 0;
    WHILE n > 1 DO
      IF n MOD 2 > 0 THEN n := 3 * n + 1 ELSE n := n DIV 2 END;
      length := length + 1
    END;
    IF length > longest THEN longest := length; best := start END;
    start := start + 1
  UNTIL start >= 1000;
  WRITELN(best)
END Collatz.
