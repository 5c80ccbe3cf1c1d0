MODULE TextBuffer;
IMPORT IO, Text;

REVEAL T = BRANDED "TextBuffer" REF RECORD
    characters: REF ARRAY OF CHAR;
    length: CARDINAL := 0
  END;

PROCEDURE New(): T =
  BEGIN
    RETURN NEW(T, characters := NEW(REF ARRAY OF CHAR, 16))
  END New;

(* Makes room for so many more, at least twice what there was. *)
PROCEDURE MakeRoom(buffer: T; more: CARDINAL) =
  VAR
    room := NUMBER(buffer.characters^);
    wider: REF ARRAY OF CHAR;
  BEGIN
    IF buffer.length + more <= room THEN RETURN END;
    wider := NEW(REF ARRAY OF CHAR, MAX(2 * room, buffer.length + more));
    SUBARRAY(wider^, 0, buffer.length) := SUBARRAY(buffer.characters^, 0, buffer.length);
    buffer.characters := wider
  END MakeRoom;

PROCEDURE PutChar(buffer: T; c: CHAR) =
  BEGIN
    MakeRoom(buffer, 1);
    buffer.characters[buffer.length] := c;
    INC(buffer.length)
  END PutChar;

PROCEDURE PutText(buffer: T; text: TEXT) =
  VAR length := Text.Length(text);
  BEGIN
    MakeRoom(buffer, length);
    FOR i := 0 TO length - 1 DO
      buffer.characters[buffer.length + i] := Text.GetChar(text, i)
    END;
    INC(buffer.length, length)
  END PutText;

PROCEDURE Length(buffer: T): CARDINAL =
  BEGIN RETURN buffer.length END Length;

(* The used part stands alone here, so that a place behind it is the fault Index. *)
PROCEDURE GetChar(buffer: T; place: CARDINAL): CHAR =
  BEGIN
    WITH used = SUBARRAY(buffer.characters^, 0, buffer.length) DO RETURN used[place] END
  END GetChar;

PROCEDURE SetChar(buffer: T; place: CARDINAL; c: CHAR) =
  BEGIN
    WITH used = SUBARRAY(buffer.characters^, 0, buffer.length) DO used[place] := c END
  END SetChar;

PROCEDURE Cut(buffer: T; length: CARDINAL) =
  BEGIN buffer.length := MIN(buffer.length, length) END Cut;

(* By halves: each character is copied once for each time that the length can be halved. *)
PROCEDURE TextOf(READONLY characters: ARRAY OF CHAR): TEXT =
  VAR length := NUMBER(characters); half := length DIV 2;
  BEGIN
    IF length = 0 THEN RETURN "" END;
    IF length = 1 THEN RETURN Text.FromChar(characters[0]) END;
    RETURN TextOf(SUBARRAY(characters, 0, half))
           & TextOf(SUBARRAY(characters, half, length - half))
  END TextOf;

PROCEDURE ToText(buffer: T): TEXT =
  BEGIN RETURN TextOf(SUBARRAY(buffer.characters^, 0, buffer.length)) END ToText;

PROCEDURE Print(buffer: T) =
  BEGIN
    FOR i := 0 TO buffer.length - 1 DO IO.PutChar(buffer.characters[i]) END
  END Print;

BEGIN
END TextBuffer.
