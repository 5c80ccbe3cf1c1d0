MODULE IntegerSort = ArraySort(IntegerItem) END IntegerSort.
