MODULE Main;
IMPORT IO, Thread;
CONST Room = 16; Count = 300000;
TYPE
  Buffer = MUTEX OBJECT
    items: ARRAY [0 .. Room - 1] OF INTEGER;
    first, count := 0;
    changed: Thread.Condition
  END;
  Producer = Thread.Closure OBJECT buffer: Buffer OVERRIDES apply := Produce END;
PROCEDURE Produce(self: Producer): REFANY =
  BEGIN
    WITH buffer = self.buffer DO
      FOR n := 1 TO Count DO
        LOCK buffer DO
          WHILE buffer.count = Room DO Thread.Wait(buffer, buffer.changed) END;
          buffer.items[(buffer.first + buffer.count) MOD Room] := n;
          INC(buffer.count)
        END;
        Thread.Signal(buffer.changed)
      END
    END;
    RETURN NIL
  END Produce;
PROCEDURE Next(buffer: Buffer): INTEGER =
  VAR item: INTEGER;
  BEGIN
    LOCK buffer DO
      WHILE buffer.count = 0 DO Thread.Wait(buffer, buffer.changed) END;
      item := buffer.items[buffer.first];
      buffer.first := (buffer.first + 1) MOD Room;
      DEC(buffer.count)
    END;
    Thread.Signal(buffer.changed);
    RETURN item
  END Next;
VAR
  buffer := NEW(Buffer, changed := NEW(Thread.Condition));
  producer := Thread.Fork(NEW(Producer, buffer := buffer));
  sum := 0;
BEGIN
  FOR i := 1 TO Count DO sum := (sum * 31 + Next(buffer)) MOD 1000000007 END;
  EVAL Thread.Join(producer);
  IO.PutInt(sum); IO.PutChar('\n')
END Main.
