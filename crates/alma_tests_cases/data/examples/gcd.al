MODULE Gcd;
(* The greatest number that divides two numbers. *)
VAR a, b, rest: INTEGER;
BEGIN
  a := 1071; b := 462;
  WHILE b <> 0 DO
    rest := a MOD b; a := b; b := rest
  END;
  WRITELN(a)
END Gcd.
