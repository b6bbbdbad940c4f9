MODULE Lesson02;
(* A Boolean expression is a statement: where it is true the program goes on, where it is false it fails. *)
VAR age: INTEGER;
BEGIN
  age := 20;
  age >= 18;
  WRITELN("old enough");
  age > 65;
  WRITELN("never printed")
END Lesson02.
