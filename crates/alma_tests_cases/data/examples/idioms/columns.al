MODULE Columns;
(* Lines of a word and two numbers are printed as a table: words stand left in their column, numbers right. *)
CONST Most = 10;
VAR word: ARRAY [1..Most] OF CHAR; long, pieces, price, sum: INTEGER;

PROCEDURE Word;
(* the next word, cut where it is longer than there is room; at the end of the input it fails *)
VAR c: CHAR;
BEGIN
  REPEAT READ(c) UNTIL c > " ";
  word[1] := c; long := 1;
  WHILE (READ(c); c > " ") DO IF long < Most THEN long := long + 1; word[long] := c END END
END Word;

PROCEDURE Spaces(count: INTEGER);
VAR i: INTEGER;
BEGIN FOR i := 1 TO count DO WRITE(" ") END END Spaces;

PROCEDURE Width(n: INTEGER): INTEGER;
(* how many characters n has when it is written *)
BEGIN
  IF n < 0 THEN RETURN 1 + Width(-n) ELSIF n < 10 THEN RETURN 1 ELSE RETURN 1 + Width(n DIV 10) END
END Width;

PROCEDURE Left;
VAR i: INTEGER;
BEGIN FOR i := 1 TO long DO WRITE(word[i]) END; Spaces(Most - long) END Left;

PROCEDURE Right(n, wide: INTEGER);
BEGIN Spaces(wide - Width(n)); WRITE(n) END Right;

BEGIN
  sum := 0;
  WHILE Word DO
    READ(pieces, price);
    sum := sum + pieces * price;
    Left; Right(pieces, 4); Right(price, 7); Right(pieces * price, 8); WRITELN
  END;
  Spaces(Most + 11); Right(sum, 8); WRITELN
END Columns.
