MODULE Zebra;
(* Five houses in a row: who keeps the zebra, and who drinks water? A house is a number from 1 to 5, and a clue is an equation.
   House5 tests a house that is known and gives each in turn to one that is not; FORALL goes on to the end, so the answer is the
   only one. *)
TYPE House = [1..5];
VAR
  red, green, ivory, yellow, blue: INTEGER;
  english, spaniard, ukrainian, norwegian, japanese: INTEGER;
  coffee, tea, milk, juice, water: INTEGER;
  dog, snails, fox, horse, zebra: INTEGER;
  oldgold, kools, chesterfield, lucky, parliament: INTEGER;
  count: INTEGER;

PROCEDURE House5(MIX h: INTEGER);
(* h is a house: tests a known one, gives each in turn to an unknown one *)
VAR i: INTEGER;
BEGIN SOME i := 1 TO 5 DO h = i END END House5;

PROCEDURE Different(MIX a, b, c, d, e: INTEGER);
BEGIN
  House5(a);
  House5(b); b <> a;
  House5(c); c <> a; c <> b;
  House5(d); d <> a; d <> b; d <> c;
  House5(e); e <> a; e <> b; e <> c; e <> d
END Different;

PROCEDURE NextTo(a: INTEGER; MIX b: INTEGER);
BEGIN EITHER b = a + 1 ORELSE b = a - 1 END END NextTo;

PROCEDURE Solve;
BEGIN
  norwegian = 1;
  NextTo(norwegian, blue);
  milk = 3;
  Different(red, green, ivory, yellow, blue);
  green = ivory + 1;
  english = red;
  Different(english, spaniard, ukrainian, norwegian, japanese);
  coffee = green;
  ukrainian = tea;
  Different(coffee, tea, milk, juice, water);
  kools = yellow;
  lucky = juice;
  parliament = japanese;
  Different(oldgold, kools, chesterfield, lucky, parliament);
  dog = spaniard;
  snails = oldgold;
  NextTo(chesterfield, fox);
  NextTo(kools, horse);
  Different(dog, snails, fox, horse, zebra)
END Solve;

PROCEDURE Who(house: INTEGER);
BEGIN
  IF english = house THEN WRITELN("the Englishman")
  ELSIF spaniard = house THEN WRITELN("the Spaniard")
  ELSIF ukrainian = house THEN WRITELN("the Ukrainian")
  ELSIF norwegian = house THEN WRITELN("the Norwegian")
  ELSE WRITELN("the Japanese")
  END
END Who;

BEGIN
  count := 0;
  FORALL Solve DO
    count := count + 1;
    WRITE("The zebra is kept by "); Who(zebra);
    WRITE("Water is drunk by "); Who(water)
  END;
  WRITELN(count, " solution")
END Zebra.
