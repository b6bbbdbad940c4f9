MODULE Holds;
(* Whether a test holds for all: FOR with the test in it, over a range; NOT (S; NOT (T)), over all ways of S. FORALL
   passes over the ways whose test is false: it counts those that are left, and never fails. *)
CONST N = 5;
VAR row: ARRAY [1..N] OF INTEGER; a, b, count: INTEGER;

PROCEDURE Set(a, b, c, d, e: INTEGER);
BEGIN row[1] := a; row[2] := b; row[3] := c; row[4] := d; row[5] := e END Set;

PROCEDURE Rises;
VAR i: INTEGER;
BEGIN FOR i := 2 TO N DO row[i - 1] < row[i] END END Rises;

PROCEDURE Pair(VAR a, b: INTEGER);
(* each two of the row, one pair behind the other *)
VAR i, k: INTEGER;
BEGIN SOME i := 1 TO N DO SOME k := i + 1 TO N DO a := row[i]; b := row[k] END END END Pair;

PROCEDURE EvenSums;
VAR a, b: INTEGER;
BEGIN NOT (Pair(a, b); NOT ((a + b) MOD 2 = 0)) END EvenSums;

BEGIN
  Set(1, 3, 5, 9, 11);
  WRITELN("it rises: ", Rises, "; all sums of two are even: ", EvenSums);
  Set(1, 3, 6, 4, 11);
  WRITELN("it rises: ", Rises, "; all sums of two are even: ", EvenSums);
  count := 0;
  FORALL Pair(a, b) DO (a + b) MOD 2 = 0; count := count + 1 END;
  WRITELN("behind FORALL it goes on: of 10 sums ", count, " are even")
END Holds.
