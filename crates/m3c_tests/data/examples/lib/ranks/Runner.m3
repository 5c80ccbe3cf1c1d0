MODULE Runner;

PROCEDURE Compare(a, b: T): INTEGER =
  BEGIN RETURN a.seconds - b.seconds END Compare;

BEGIN
END Runner.
