MODULE Lesson03;
(* A variable is unknown until it gets a value.
   An equation gives an unknown side the value of the other one, and else compares. *)
VAR x, y: INTEGER;
BEGIN
  WRITELN(KNOWN(x));
  x = 7;
  WRITELN(KNOWN(x), " ", x);
  IF y = x THEN WRITELN("y is ", y) END;
  IF y = 8 THEN WRITELN("y is 8") ELSE WRITELN("y is not 8") END;
  x = 8;
  WRITELN("never printed")
END Lesson03.
