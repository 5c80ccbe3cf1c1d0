MODULE Main;
IMPORT IO;
TYPE
  Event = OBJECT time: INTEGER METHODS happen(): INTEGER END;
  Arrival = Event OBJECT OVERRIDES happen := Arrive END;
  Service = Event OBJECT length := 0 OVERRIDES happen := Serve END;
  Queue = OBJECT
    events: REF ARRAY OF Event;
    count := 0
  METHODS
    put(event: Event) := Put;
    take(): Event := Take
  END;
PROCEDURE Put(self: Queue; event: Event) =
  VAR place := self.count; above: INTEGER;
  BEGIN
    INC(self.count);
    WHILE place > 0 DO
      above := (place - 1) DIV 2;
      IF self.events[above].time <= event.time THEN EXIT END;
      self.events[place] := self.events[above];
      place := above
    END;
    self.events[place] := event
  END Put;
PROCEDURE Take(self: Queue): Event =
  VAR first := self.events[0]; last: Event; place := 0; below: INTEGER;
  BEGIN
    DEC(self.count);
    last := self.events[self.count];
    LOOP
      below := 2 * place + 1;
      IF below >= self.count THEN EXIT END;
      IF below + 1 < self.count AND self.events[below + 1].time < self.events[below].time THEN
        INC(below)
      END;
      IF last.time <= self.events[below].time THEN EXIT END;
      self.events[place] := self.events[below];
      place := below
    END;
    self.events[place] := last;
    RETURN first
  END Take;
VAR
  queue := NEW(Queue, events := NEW(REF ARRAY OF Event, 2000));
  seed := 1; sum := 0;
PROCEDURE Random(below: INTEGER): INTEGER =
  BEGIN
    seed := (seed * 16807) MOD 2147483647;
    RETURN seed MOD below
  END Random;
PROCEDURE Arrive(self: Arrival): INTEGER =
  BEGIN
    WITH length = Random(50) DO
      queue.put(NEW(Service, time := self.time + length, length := length))
    END;
    RETURN 1
  END Arrive;
PROCEDURE Serve(self: Service): INTEGER =
  BEGIN
    queue.put(NEW(Arrival, time := self.time + Random(100)));
    RETURN self.length
  END Serve;
BEGIN
  FOR i := 1 TO 1000 DO queue.put(NEW(Arrival, time := Random(1000))) END;
  FOR i := 1 TO 200000 DO
    WITH event = queue.take() DO
      sum := (sum * 31 + event.time + event.happen()) MOD 1000000007
    END
  END;
  IO.PutInt(sum); IO.PutChar('\n')
END Main.
