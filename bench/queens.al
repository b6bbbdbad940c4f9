MODULE Queens;
(* All 724 ways to place ten queens, without a procedure: the program by which docs and bench count the steps of code. *)
VAR row: ARRAY [1..10] OF INTEGER; column, place, i, ways: INTEGER;
BEGIN
  ways := 0;
  FORALL
    FOR column := 1 TO 10 DO
      SOME place := 1 TO 10 DO
        FOR i := 1 TO column - 1 DO
          row[i] <> place; row[i] <> place + column - i; row[i] <> place + i - column
        END;
        row[column] = place
      END
    END
  DO ways := ways + 1 END;
  WRITELN(ways)
END Queens.
