MODULE RunnerSort = ArraySort(Runner) END RunnerSort.
