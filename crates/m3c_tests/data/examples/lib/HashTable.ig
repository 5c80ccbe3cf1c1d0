GENERIC INTERFACE HashTable(Key, Value);
(* Tables from keys to values. Key must have a type T and procedures `Hash(key: T): INTEGER` and
   `Equal(a, b: T): BOOLEAN`; keys that are equal have the same hash. Value must have a type T. A call
   takes the time of a few calls of Hash and Equal, whatever the size, as long as few keys have the
   same hash. A NIL table is the fault Nil, and what Hash or Equal meet ends the call. *)

TYPE
  T <: Public;
  Public = OBJECT METHODS
    put(key: Key.T; value: Value.T);
    (* Sets the value of a key, in the place of the one that it had. *)

    get(key: Key.T; VAR value: Value.T): BOOLEAN;
    (* Whether the key has a value, and then which; else the variable stays as it is. *)

    delete(key: Key.T): BOOLEAN;
    (* Takes a key and its value out, and tells whether it was there. *)

    size(): CARDINAL;
    (* The number of keys. *)

    iterate(): Iterator
    (* Goes over the keys in the order in which they came. *)
  END;

  Iterator <: PublicIterator;
  PublicIterator = OBJECT METHODS
    next(VAR key: Key.T; VAR value: Value.T): BOOLEAN
    (* Whether there is one more key, and then which, with its value. A key that is taken out before
       its turn doesn't come; one that is put in meanwhile may come or not. *)
  END;

PROCEDURE New(): T;
(* An empty table. *)

END HashTable.
