MODULE Signs;
(* A condition that fails takes back what it has read. REPEAT keeps the character that ends it. *)
VAR c: CHAR; count: INTEGER;

PROCEDURE Next;
(* c becomes the next character that is no space *)
BEGIN REPEAT READ(c) UNTIL c <> " " END Next;

BEGIN
  count := 0;
  WHILE (READ(c); c = " ") DO count := count + 1 END;
  WRITELN(count, " spaces, and c is still the last one: ", c = " ");
  READ(c);
  WRITELN("what ended the loop is read again: ", c);
  Next;
  WRITELN("what ended REPEAT is in c: ", c)
END Signs.
