INTERFACE TextSort = ArraySort(TextItem) END TextSort.
