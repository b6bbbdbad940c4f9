MODULE Hello;
(* A number and a truth: the least program that prints something. *)
BEGIN
  WRITE(1, TRUE)
END Hello.
