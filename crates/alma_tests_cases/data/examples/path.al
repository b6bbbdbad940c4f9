MODULE Path;
(* A way through a graph that comes to each of its nodes once. The edges are those of a dodecahedron: each node has three neighbours. *)
CONST N = 20;
TYPE Node = [0..N - 1];
VAR next: ARRAY Node, [1..3] OF Node; order: ARRAY Node OF INTEGER; at, node, place, k: INTEGER;

PROCEDURE Edges;
VAR i: INTEGER;
BEGIN
  FOR i := 0 TO 4 DO
    next[i, 1] := (i + 1) MOD 5; next[i, 2] := (i + 4) MOD 5; next[i, 3] := 5 + 2 * i;
    next[5 + 2 * i, 1] := i; next[5 + 2 * i, 2] := 6 + 2 * i; next[5 + 2 * i, 3] := 5 + (2 * i + 9) MOD 10;
    next[6 + 2 * i, 1] := 15 + i; next[6 + 2 * i, 2] := 5 + 2 * i; next[6 + 2 * i, 3] := 5 + (2 * i + 2) MOD 10;
    next[15 + i, 1] := 6 + 2 * i; next[15 + i, 2] := 15 + (i + 1) MOD 5; next[15 + i, 3] := 15 + (i + 4) MOD 5
  END
END Edges;

BEGIN
  Edges;
  node := 0; order[node] = 0; WRITE("0");
  at := 0;
  FOR place := 1 TO N - 1 DO
    SOME k := 1 TO 3 DO node := next[at, k]; NOT KNOWN(order[node]); order[node] = place; at := node END
  END;
  FOR place := 1 TO N - 1 DO
    FOR node := 0 TO N - 1 DO IF order[node] = place THEN WRITE(" ", node) END END
  END;
  WRITELN
END Path.
