MODULE Unknown;
(* An array that is not known yet: its unknown cells are the free ones. An equation fills a cell or tests it, and an
   array that is never set clears another. *)
TYPE Row = ARRAY [1..6] OF INTEGER;
VAR seat, empty: Row; i: INTEGER;

PROCEDURE Sit(who: INTEGER);
VAR place: INTEGER;
BEGIN SOME place := who TO 6 DO NOT KNOWN(seat[place]); seat[place] := who END END Sit;

PROCEDURE Show;
VAR i: INTEGER;
BEGIN FOR i := 1 TO 6 DO IF KNOWN(seat[i]) THEN WRITE(seat[i], " ") ELSE WRITE("- ") END END; WRITELN END Show;

BEGIN
  seat[2] = 7;
  FOR i := 1 TO 3 DO Sit(i) END;
  Show;
  FOR i := 1 TO 6 DO NOT (KNOWN(seat[i]) AND (seat[i] > 7)) END;
  seat := empty;
  Show
END Unknown.
