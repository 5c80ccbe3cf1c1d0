MODULE TextSort = ArraySort(TextItem) END TextSort.
