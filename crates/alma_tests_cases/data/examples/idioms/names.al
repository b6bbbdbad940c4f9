MODULE Names;
(* The names of an enumeration: written by a CASE, counted by FOR and SOME, reached from a number by ORD. *)
TYPE Day = (Mon, Tue, Wed, Thu, Fri); Plan = ARRAY Day OF BOOLEAN;
VAR day, next: Day; free: Plan;

PROCEDURE Show(day: Day);
BEGIN CASE day OF Mon: WRITE("Mon") | Tue: WRITE("Tue") | Wed: WRITE("Wed") | Thu: WRITE("Thu") | Fri: WRITE("Fri") END
END Show;

PROCEDURE Numbered(n: INTEGER): Day;
VAR day: Day;
BEGIN SOME day := Mon TO Fri DO ORD(day) = n END; RETURN day END Numbered;

BEGIN
  FOR day := Mon TO Fri DO free[day] := (day = Tue) OR (day >= Thu) END;
  IF (SOME day := Mon TO Thu DO next := Numbered(ORD(day) + 1); free[day]; free[next] END) THEN
    Show(day); WRITE(" and "); Show(next); WRITELN(" are free, one behind the other")
  END;
  FOR day := Fri TO Mon BY -1 DO IF NOT free[day] THEN Show(day); WRITE(" ") END END;
  WRITELN("are not")
END Names.
