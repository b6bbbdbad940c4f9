MODULE River;
(* A farmer takes a wolf, a goat and a cabbage over a river in a boat for one of them. Alone with the wolf the goat is eaten, and the cabbage
   alone with the goat. A state that was seen before fails, so the way never goes in circles. *)
TYPE Side = BOOLEAN; Way = ARRAY [0..15] OF CHAR;
VAR farmer, wolf, goat, cabbage: Side; seen: ARRAY [0..15] OF BOOLEAN; way: Way; steps, i: INTEGER;

PROCEDURE State(): INTEGER;
BEGIN
  RETURN ORD(farmer) + 2 * ORD(wolf) + 4 * ORD(goat) + 8 * ORD(cabbage)
END State;

PROCEDURE Safe;
BEGIN
  (ORD(goat) <> ORD(wolf)) OR (ORD(goat) = ORD(farmer)); (ORD(goat) <> ORD(cabbage)) OR (ORD(goat) = ORD(farmer))
END Safe;

PROCEDURE Cross(VAR passenger: Side; name: CHAR);
BEGIN
  ORD(passenger) = ORD(farmer);
  passenger := NOT (farmer); farmer := passenger;
  way[steps] := name
END Cross;

PROCEDURE Step;
BEGIN
  EITHER farmer := NOT (farmer); way[steps] := "-"
  ORELSE Cross(goat, "g")
  ORELSE Cross(wolf, "w")
  ORELSE Cross(cabbage, "c")
  END;
  Safe;
  NOT seen[State()]; seen[State()] := TRUE;
  steps := steps + 1
END Step;

BEGIN
  farmer := FALSE; wolf := FALSE; goat := FALSE; cabbage := FALSE; steps := 0;
  FOR i := 0 TO 15 DO seen[i] := FALSE END; seen[0] := TRUE;
  WHILE State() < 15 DO Step END;
  FOR i := 0 TO steps - 1 DO
    CASE way[i] OF
      "g": WRITELN("the goat") | "w": WRITELN("the wolf") | "c": WRITELN("the cabbage") | "-": WRITELN("alone")
    END
  END
END River.
