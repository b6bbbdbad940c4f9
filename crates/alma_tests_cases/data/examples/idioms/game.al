MODULE Game;
(* Nim: who takes the last one wins. A position is won where a move leads to one that is not won. *)
CONST Heaps = 3;
VAR heap: ARRAY [1..Heaps] OF INTEGER; h, n: INTEGER;

PROCEDURE Set(a, b, c: INTEGER);
BEGIN heap[1] := a; heap[2] := b; heap[3] := c END Set;

PROCEDURE Move(VAR h, n: INTEGER);
(* each move, one behind the other: n are taken of heap h *)
BEGIN SOME h := 1 TO Heaps DO SOME n := 1 TO heap[h] DO heap[h] := heap[h] - n END END END Move;

PROCEDURE Wins;
(* who is to move wins *)
VAR h, n: INTEGER;
BEGIN Move(h, n); NOT Wins END Wins;

BEGIN
  Set(2, 3, 2);
  FORALL Move(h, n); NOT Wins DO WRITELN("take ", n, " of heap ", h) END;
  Set(1, 2, 3);
  NOT Wins;
  WRITELN("1, 2 and 3 are lost");
  Set(1, 2, 4);
  IF (Move(h, n); NOT Wins) THEN WRITELN("taken ", n, " of heap ", h, ": it has ", heap[h]) END
END Game.
