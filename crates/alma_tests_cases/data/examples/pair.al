MODULE Pair;
(* A procedure inside another sees its variables, and a choice made in one is a choice of all: when the sum fails, the numbers of the inner
   procedure are tried again, and the variables round it with them. All ways to write a number as the sum of three squares. *)
VAR count: INTEGER;

PROCEDURE Ways(number: INTEGER; VAR count: INTEGER);
VAR a, b, c: INTEGER;

  PROCEDURE Square(root: INTEGER): INTEGER;
  BEGIN
    RETURN root * root
  END Square;

  PROCEDURE Roots;
  VAR low: INTEGER;

    PROCEDURE Root(VAR root: INTEGER);
    VAR n: INTEGER;
    BEGIN
      SOME n := low TO number DO n * n <= number; root = n; low := n END
    END Root;

  BEGIN
    low := 0; Root(a); Root(b); Root(c)
  END Roots;

BEGIN
  FORALL Roots; Square(a) + Square(b) + Square(c) = number DO
    WRITELN(number, " = ", a, "*", a, " + ", b, "*", b, " + ", c, "*", c);
    count := count + 1
  END
END Ways;

BEGIN
  count := 0; Ways(101, count); WRITELN(count, " ways")
END Pair.
