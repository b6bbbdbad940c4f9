MODULE Timetable;
(* Lessons are put into hours. The input has the number of lessons and, for each, its teacher, its class and its room, as numbers. In one
   hour no teacher, class or room has two lessons, and the class that a lesson is for has no free hour between two.
   alma run timetable.al <timetable.in *)
TYPE Numbers = [1..20]; Hours = [1..5]; Taken = ARRAY Numbers, Hours OF BOOLEAN;
VAR count, l, h: INTEGER; teacher, class, room: ARRAY Numbers OF Numbers; hour: ARRAY Numbers OF Hours;
    teaches, learns, full: Taken;

PROCEDURE Put(l, h: INTEGER);
BEGIN
  NOT teaches[teacher[l], h]; NOT learns[class[l], h]; NOT full[room[l], h];
  teaches[teacher[l], h] := TRUE; learns[class[l], h] := TRUE; full[room[l], h] := TRUE;
  hour[l] := h
END Put;

PROCEDURE HasNoGap(class: INTEGER);
VAR h: INTEGER;
BEGIN
  FOR h := 2 TO 4 DO
    IF learns[class, h - 1] AND learns[class, h + 1] THEN learns[class, h] END
  END;
  IF learns[class, 1] AND learns[class, 4] THEN learns[class, 2] END
END HasNoGap;

BEGIN
  FOR l := 1 TO 20 DO FOR h := 1 TO 5 DO teaches[l, h] := FALSE; learns[l, h] := FALSE; full[l, h] := FALSE END END;
  READ(count);
  FOR l := 1 TO count DO READ(teacher[l], class[l], room[l]) END;
  FOR l := 1 TO count DO SOME h := 1 TO 5 DO Put(l, h) END END;
  FOR l := 1 TO count DO HasNoGap(class[l]) END;
  FOR h := 1 TO 5 DO
    WRITE("hour ", h, ":");
    FOR l := 1 TO count DO
      IF hour[l] = h THEN WRITE("  teacher ", teacher[l], " class ", class[l], " room ", room[l]) END
    END;
    WRITELN
  END
END Timetable.
