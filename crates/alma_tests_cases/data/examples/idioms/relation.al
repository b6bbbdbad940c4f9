MODULE Relation;
(* Behind: the list r is p, and q behind it. It joins two lists, parts one in all ways, and finds what is missing. *)
CONST Most = 8;
TYPE List = RECORD long: INTEGER; cell: ARRAY [1..Most] OF INTEGER END;
VAR p, q, r, empty: List;

PROCEDURE Behind(VAR p, q, r: List);
VAR i, k: INTEGER;
BEGIN
  IF NOT KNOWN(r.long) THEN r.long := p.long + q.long
  ELSE SOME k := 0 TO r.long DO p.long = k; q.long = r.long - k END
  END;
  FOR i := 1 TO p.long DO p.cell[i] = r.cell[i] END;
  FOR i := 1 TO q.long DO q.cell[i] = r.cell[p.long + i] END
END Behind;

PROCEDURE Show(VAR l: List);
VAR i: INTEGER;
BEGIN WRITE("["); FOR i := 1 TO l.long DO WRITE(" ", l.cell[i]) END; WRITE(" ] ") END Show;

BEGIN
  p.long := 2; p.cell[1] := 7; p.cell[2] := 8;
  q.long := 1; q.cell[1] := 9;
  Behind(p, q, r);
  Show(r); WRITELN("is both");
  q := empty;
  Behind(p, q, r);
  Show(q); WRITELN("is missing");
  p := empty; q := empty;
  FORALL Behind(p, q, r) DO Show(p); Show(q); WRITELN END;
  p.long := 1; p.cell[1] := 8;
  WRITELN("it begins with an 8: ", Behind(p, q, r))
END Relation.
