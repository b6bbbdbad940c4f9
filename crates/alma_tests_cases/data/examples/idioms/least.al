MODULE Least;
(* The least first: SOME tries the bounds upwards, and the first one that has a way is the least. *)
CONST Jobs = 6;
VAR long: ARRAY [1..Jobs] OF INTEGER; machine: ARRAY [1..Jobs] OF [1..2]; span, i: INTEGER;

PROCEDURE Job(k, time: INTEGER);
BEGIN long[k] := time END Job;

PROCEDURE Plan(k, left1, left2: INTEGER);
(* the jobs from k on, on two machines that have so much time left *)
BEGIN
  IF k <= Jobs THEN
    EITHER long[k] <= left1; machine[k] := 1; Plan(k + 1, left1 - long[k], left2)
    ORELSE long[k] <= left2; machine[k] := 2; Plan(k + 1, left1, left2 - long[k])
    END
  END
END Plan;

BEGIN
  Job(1, 7); Job(2, 5); Job(3, 5); Job(4, 4); Job(5, 3); Job(6, 3);
  COMMIT SOME span := 1 TO 27 DO Plan(1, span, span) END END;
  WRITE("done after ", span, ", on machine 1:");
  FOR i := 1 TO Jobs DO IF machine[i] = 1 THEN WRITE(" ", i) END END;
  WRITELN
END Least.
