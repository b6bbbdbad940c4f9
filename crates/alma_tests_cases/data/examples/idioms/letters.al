MODULE Letters;
(* Words are read into an array with a length, and sought in a grid in all eight directions; then a row is looked up by
   two of its letters. *)
CONST N = 4;
TYPE Row = ARRAY [1..N] OF CHAR;
VAR grid: ARRAY [1..N] OF Row; row: Row; word: ARRAY [1..20] OF CHAR; long, x, y, i: INTEGER;

PROCEDURE Fill(y: INTEGER; a, b, c, d: CHAR);
BEGIN grid[y, 1] := a; grid[y, 2] := b; grid[y, 3] := c; grid[y, 4] := d END Fill;

PROCEDURE Word;
(* the next line, and its line feed, which the last one may lack; at the end of the input it fails *)
VAR c: CHAR;
BEGIN
  long := 0;
  WHILE (READ(c); c <> CHR(10)) DO long := long + 1; word[long] := c END;
  (READ(c)) OR (long > 0)
END Word;

PROCEDURE At(x, y: INTEGER; c: CHAR);
BEGIN 1 <= x; x <= N; 1 <= y; y <= N; grid[y, x] = c END At;

PROCEDURE Find(VAR x, y: INTEGER);
VAR dx, dy, i: INTEGER;
BEGIN
  SOME y := 1 TO N DO SOME x := 1 TO N DO SOME dx := -1 TO 1 DO SOME dy := -1 TO 1 DO
    FOR i := 1 TO long DO At(x + (i - 1) * dx, y + (i - 1) * dy, word[i]) END
  END END END END
END Find;

BEGIN
  Fill(1, "m", "e", "a", "t"); Fill(2, "o", "v", "e", "n"); Fill(3, "l", "i", "n", "e"); Fill(4, "d", "a", "r", "e");
  WHILE Word DO
    FOR i := 1 TO long DO WRITE(word[i]) END;
    IF Find(x, y) THEN WRITELN(" begins at ", y, ",", x) ELSE WRITELN(" is not there") END
  END;
  row[2] = "i"; row[4] = "e";
  SOME y := 1 TO N DO row = grid[y] END;
  WRITE("-i-e is ");
  FOR i := 1 TO N DO WRITE(row[i]) END;
  WRITELN
END Letters.
