INTERFACE TextToInteger = HashTable(TextItem, IntegerItem) END TextToInteger.
