MODULE Year;
(* A statement that is a condition is a test: the program fails where it is false. This one asks for a leap year. *)
VAR year: INTEGER;
BEGIN
  year := 2028;
  year MOD 4 = 0;
  IF year MOD 100 = 0 THEN year MOD 400 = 0 END;
  WRITELN(year, " is a leap year")
END Year.
