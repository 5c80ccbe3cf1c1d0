INTERFACE IntegerSort = ArraySort(IntegerItem) END IntegerSort.
