MODULE Colours;
(* A map is coloured so that neighbours differ. The colours are an enumeration, and a country without a colour is an unknown variable: the
   test Differ is made as soon as both are known. *)
TYPE Colour = (red, green, blue, yellow);
VAR austria, belgium, czechia, denmark, france, germany, luxembourg, netherlands, poland, switzerland: Colour; count: INTEGER;

PROCEDURE Any(VAR country: Colour);
BEGIN
  EITHER country = red ORELSE country = green ORELSE country = blue ORELSE country = yellow END
END Any;

PROCEDURE Name(country: Colour);
BEGIN
  CASE country OF red: WRITE("red") | green: WRITE("green") | blue: WRITE("blue") | yellow: WRITE("yellow") END;
  WRITELN
END Name;

PROCEDURE Map;
BEGIN
  Any(germany);
  Any(france); france <> germany;
  Any(belgium); belgium <> germany; belgium <> france;
  Any(luxembourg); luxembourg <> germany; luxembourg <> france; luxembourg <> belgium;
  Any(netherlands); netherlands <> germany; netherlands <> belgium;
  Any(switzerland); switzerland <> germany; switzerland <> france;
  Any(austria); austria <> germany; austria <> switzerland;
  Any(czechia); czechia <> germany; czechia <> austria;
  Any(poland); poland <> germany; poland <> czechia;
  Any(denmark); denmark <> germany
END Map;

BEGIN
  count := 0;
  FORALL Map DO count := count + 1 END;
  WRITELN(count, " ways; the first:");
  Map;
  WRITE("austria "); Name(austria); WRITE("belgium "); Name(belgium); WRITE("czechia "); Name(czechia);
  WRITE("denmark "); Name(denmark); WRITE("france "); Name(france); WRITE("germany "); Name(germany);
  WRITE("luxembourg "); Name(luxembourg); WRITE("netherlands "); Name(netherlands); WRITE("poland "); Name(poland);
  WRITE("switzerland "); Name(switzerland)
END Colours.
