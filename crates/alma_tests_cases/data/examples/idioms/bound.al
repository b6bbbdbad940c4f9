MODULE Bound;
(* Branch and bound: each search looks for a way that is better than the best so far, and is taken back; the last one
   finds none. *)
CONST N = 6; Most = 15;
TYPE Choice = ARRAY [1..N] OF BOOLEAN;
VAR weight, worth: ARRAY [1..N] OF INTEGER; taken, kept: Choice; best, total, i: INTEGER; more: BOOLEAN;

PROCEDURE Thing(k, heavy, dear: INTEGER);
BEGIN weight[k] := heavy; worth[k] := dear END Thing;

PROCEDURE Fill(k, room, value, rest: INTEGER);
(* `rest`: what all things from k on are worth *)
BEGIN
  value + rest > best;
  IF k > N THEN total := value
  ELSE
    EITHER
      weight[k] <= room; taken[k] := TRUE;
      Fill(k + 1, room - weight[k], value + worth[k], rest - worth[k])
    ORELSE taken[k] := FALSE; Fill(k + 1, room, value, rest - worth[k])
    END
  END
END Fill;

BEGIN
  Thing(1, 12, 4); Thing(2, 2, 2); Thing(3, 1, 1); Thing(4, 4, 10); Thing(5, 1, 2); Thing(6, 7, 9);
  best := 0; more := TRUE;
  WHILE more DO
    more := FALSE;
    FORALL COMMIT Fill(1, Most, 0, 28) END DO
      best := total; kept := taken; more := TRUE;
      WRITELN("worth ", best)
    END
  END;
  FOR i := 1 TO N DO IF kept[i] THEN WRITE(i, " ") END END;
  WRITELN
END Bound.
