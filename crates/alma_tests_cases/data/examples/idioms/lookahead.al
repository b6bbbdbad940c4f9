MODULE LookAhead;
(* NOT (NOT (S)) asks whether S has a way, and takes all of it back: also what it has read. *)
VAR n: INTEGER; c: CHAR;

PROCEDURE DigitIsNext;
VAR c: CHAR;
BEGIN NOT (NOT (READ(c); c >= "0"; c <= "9")) END DigitIsNext;

BEGIN
  WHILE NOT (NOT (READ(c))) DO
    IF DigitIsNext THEN READ(n); WRITELN("a number: ", n)
    ELSE READ(c); IF c > " " THEN WRITELN("a character: ", c) END
    END
  END
END LookAhead.
