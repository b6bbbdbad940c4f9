MODULE Words;
(* A recogniser by recursive descent that goes back over its input: READ takes a byte, and a branch that fails gives it back. So the grammar
   is written down as it stands, and no byte is looked at before it is taken:
     Sum = Product { "+" Product } .   Product = Factor { "*" Factor } .   Factor = Digit { Digit } | "(" Sum ")" .
   Each procedure computes the value of what it reads. alma run words.al <words.in *)
VAR value: INTEGER;

PROCEDURE Token(wanted: CHAR);
VAR c: CHAR;
BEGIN
  READ(c); c = wanted
END Token;

PROCEDURE Number(VAR value: INTEGER);
VAR c: CHAR; more: INTEGER;
BEGIN
  READ(c); c >= "0"; c <= "9";
  value := ORD(c) - ORD("0");
  WHILE (READ(c); c >= "0"; c <= "9") DO value := 10 * value + ORD(c) - ORD("0") END
END Number;

PROCEDURE Factor(VAR value: INTEGER);
  PROCEDURE Group(VAR value: INTEGER);
  VAR term: INTEGER;

    PROCEDURE Sum(VAR value: INTEGER);
    VAR other: INTEGER;

      PROCEDURE Product(VAR value: INTEGER);
      VAR other: INTEGER;
      BEGIN
        Factor(value);
        WHILE (Token("*"); Factor(other)) DO value := value * other END
      END Product;

    BEGIN
      Product(value);
      WHILE (Token("+"); Product(other)) DO value := value + other END
    END Sum;

  BEGIN
    Token("("); Sum(term); Token(")"); value := term
  END Group;

BEGIN
  EITHER Number(value) ORELSE Group(value) END
END Factor;

BEGIN
  (* The whole input is one group, its line end left out. *)
  IF Factor(value) THEN WRITELN(value) ELSE WRITELN("no sum in parentheses") END
END Words.
