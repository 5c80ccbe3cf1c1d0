INTERFACE RunnerSort = ArraySort(Runner) END RunnerSort.
