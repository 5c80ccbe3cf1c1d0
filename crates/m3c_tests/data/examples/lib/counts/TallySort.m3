MODULE TallySort = ArraySort(Tally) END TallySort.
