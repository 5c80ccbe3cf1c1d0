MODULE TextToInteger = HashTable(TextItem, IntegerItem) END TextToInteger.
