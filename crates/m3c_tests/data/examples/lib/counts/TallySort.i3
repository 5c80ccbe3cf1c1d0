INTERFACE TallySort = ArraySort(Tally) END TallySort.
