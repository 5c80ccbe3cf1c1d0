GENERIC MODULE HashTable(Key, Value);

TYPE
  Entry = REF RECORD
    key: Key.T;
    value: Value.T;
    hash: INTEGER;
    isOut := FALSE;          (* whether it was taken out *)
    inBucket: Entry := NIL;  (* the next one of its bucket *)
    before, behind: Entry := NIL  (* those that came before and behind it *)
  END;
  Buckets = REF ARRAY OF Entry;

REVEAL
  T = Public BRANDED OBJECT
    buckets: Buckets;
    count: CARDINAL := 0;
    first, last: Entry := NIL
  OVERRIDES
    put := Put; get := Get; delete := Delete; size := Size; iterate := Iterate
  END;

  Iterator = PublicIterator BRANDED OBJECT
    entry: Entry := NIL
  OVERRIDES
    next := Next
  END;

PROCEDURE New(): T =
  BEGIN RETURN NEW(T, buckets := NEW(Buckets, 8)) END New;

PROCEDURE Find(table: T; key: Key.T; hash: INTEGER): Entry =
  VAR entry := table.buckets[hash MOD NUMBER(table.buckets^)];
  BEGIN
    WHILE entry # NIL AND NOT (entry.hash = hash AND Key.Equal(entry.key, key)) DO
      entry := entry.inBucket
    END;
    RETURN entry
  END Find;

PROCEDURE Hang(buckets: Buckets; entry: Entry) =
  BEGIN
    WITH bucket = buckets[entry.hash MOD NUMBER(buckets^)] DO
      entry.inBucket := bucket; bucket := entry
    END
  END Hang;

(* Twice as many buckets, so that few keys share one. *)
PROCEDURE Grow(table: T) =
  VAR buckets := NEW(Buckets, 2 * NUMBER(table.buckets^)); entry := table.first;
  BEGIN
    WHILE entry # NIL DO Hang(buckets, entry); entry := entry.behind END;
    table.buckets := buckets
  END Grow;

PROCEDURE Put(table: T; key: Key.T; value: Value.T) =
  VAR hash := Key.Hash(key); entry := Find(table, key, hash);
  BEGIN
    IF entry # NIL THEN entry.value := value; RETURN END;
    IF table.count = NUMBER(table.buckets^) THEN Grow(table) END;
    entry := NEW(Entry, key := key, value := value, hash := hash, before := table.last);
    Hang(table.buckets, entry);
    IF table.last = NIL THEN table.first := entry ELSE table.last.behind := entry END;
    table.last := entry;
    INC(table.count)
  END Put;

PROCEDURE Get(table: T; key: Key.T; VAR value: Value.T): BOOLEAN =
  VAR entry := Find(table, key, Key.Hash(key));
  BEGIN
    IF entry = NIL THEN RETURN FALSE END;
    value := entry.value;
    RETURN TRUE
  END Get;

PROCEDURE TakeOffBucket(buckets: Buckets; entry: Entry) =
  VAR other: Entry;
  BEGIN
    WITH bucket = buckets[entry.hash MOD NUMBER(buckets^)] DO
      IF bucket = entry THEN bucket := entry.inBucket; RETURN END;
      other := bucket
    END;
    WHILE other.inBucket # entry DO other := other.inBucket END;
    other.inBucket := entry.inBucket
  END TakeOffBucket;

PROCEDURE Delete(table: T; key: Key.T): BOOLEAN =
  VAR entry := Find(table, key, Key.Hash(key));
  BEGIN
    IF entry = NIL THEN RETURN FALSE END;
    TakeOffBucket(table.buckets, entry);
    IF entry.before = NIL THEN table.first := entry.behind
    ELSE entry.before.behind := entry.behind
    END;
    IF entry.behind = NIL THEN table.last := entry.before
    ELSE entry.behind.before := entry.before
    END;
    entry.isOut := TRUE;
    DEC(table.count);
    RETURN TRUE
  END Delete;

PROCEDURE Size(table: T): CARDINAL =
  BEGIN RETURN table.count END Size;

PROCEDURE Iterate(table: T): Iterator =
  BEGIN RETURN NEW(Iterator, entry := table.first) END Iterate;

PROCEDURE Next(iterator: Iterator; VAR key: Key.T; VAR value: Value.T): BOOLEAN =
  VAR entry := iterator.entry;
  BEGIN
    WHILE entry # NIL AND entry.isOut DO entry := entry.behind END;
    IF entry = NIL THEN iterator.entry := NIL; RETURN FALSE END;
    key := entry.key;
    value := entry.value;
    iterator.entry := entry.behind;
    RETURN TRUE
  END Next;

BEGIN
END HashTable.
