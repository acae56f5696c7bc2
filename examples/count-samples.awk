# Counts the samples in lines of `perf_data dump --order time` by task and event, in the order of their first ones.
/ Sample / {
    match($0, / tid=[0-9]+/)
    task = "task " substr($0, RSTART + 5, RLENGTH - 5) ", event " $3
    if (!(task in counts)) {
        tasks[++last] = task
    }
    counts[task]++
}

END {
    for (i = 1; i <= last; i++) {
        print tasks[i] ": " counts[tasks[i]]
    }
}
