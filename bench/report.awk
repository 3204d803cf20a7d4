# Writes BENCH.md, but for the words on why, out of what was measured.

BEGIN { GOAL_MEAN = 1.0; GOAL_WORST = 1.3; GOAL_GROWTH = 2.3 }

FILENAME ~ /machine/ { machine = machine "| " $1 " | " $2 " |\n"; next }

$1 == "family" { family[++families] = $2; what[$2] = $3 }

$1 == "time" {
    name = $2; words = $3; asked = $6
    row = sprintf("| %s | %d | %d | %d | %d | %d | %d | %.2f | %d | %d | %.2f |\n", name, words, $4, $5, $11, $7, $8, $7 / $8, $9, $10, $9 / $10)
    if (asked) {
        asked_rows = asked_rows row
        judge("station_match", name, words, $7 / $8)
        judge("station_lent", name, words, $9 / $10)
    } else
        other_rows = other_rows row
    # the last up to 2,048 words, and the last of all
    if (words <= 2048) { half_match[name] = $7; half_lent[name] = $9; half_words[name] = words }
    full_match[name] = $7; full_lent[name] = $9; full_words[name] = words
}

function judge(call, name, words, ratio) {
    count[call]++
    logs[call] += log(ratio)
    if (ratio > worst[call]) { worst[call] = ratio; worst_at[call] = name " at " words " words" }
    if (ratio > GOAL_WORST) over[call]++
}

$1 == "night" { night = sprintf("%d lists: station_match %.3f s, C %.3f s, ratio %.2f.", $2, $3, $4, $3 / $4) }

$1 == "peer" { peers = peers "| " $2 " | " $3 " | " $4 " | " $5 " |\n" }

function against(value, goal) {
    return value <= goal ? "met" : sprintf("missed: %.2f times the goal", value / goal)
}

function goals(call,    mean) {
    mean = exp(logs[call] / count[call])
    printf "| %s: geometric mean of the ratios | %.1f | %.2f | %s |\n", call, GOAL_MEAN, mean, against(mean, GOAL_MEAN)
    printf "| %s: worst ratio (%s; %d of %d over) | %.1f | %.2f | %s |\n", call, worst_at[call], over[call], count[call], GOAL_WORST, worst[call], against(worst[call], GOAL_WORST)
}

function growth(    i, f, times, most, at) {
    for (i = 1; i <= families; i++) {
        f = family[i]
        times = full_lent[f] / half_lent[f]
        growth_rows = growth_rows sprintf("| %s | %d | %d | %.2f | %.2f |\n", f, half_words[f], full_words[f], times, full_match[f] / half_match[f])
        if (times > most) { most = times; at = f }
    }
    printf "| twice the words: most times the time (%s) | %.1f | %.2f | %s |\n", at, GOAL_GROWTH, most, against(most, GOAL_GROWTH)
}

END {
    print "# How fast the station is\n"
    print "Written by `make bench`; the last part is kept in bench/why.md. The station's calls beside the same jobs in plain C (bench/plain/), in one run, by turns, the shortest of many. Before a job is timed, both sides must give the same numbers and leave the same bytes in every buffer.\n"
    print "| | |\n|---|---|\n" machine
    print "## Goals\n"
    print "| goal | at most | measured | |\n|---|---|---|---|"
    goals("station_match")
    goals("station_lent")
    growth()
    print "\n## The jobs that the goals are about\n"
    print "Nanoseconds a call. A ratio under 1 says that the station is faster. The buffers held the last call's answer and were not cleared before. Random tables are taken by turns, as many as have 32,768 words together; pairs and answer are those of the first.\n"
    head = "| family | words | pairs | answer | tables | station_match | C | ratio | station_lent | C | ratio |\n|---|---|---|---|---|---|---|---|---|---|---|"
    print head; printf "%s", asked_rows
    print "\n| family | what it is | time against words |\n|---|---|---|"
    for (i = 1; i <= families; i++)
        printf "| %s | %s | [plot](bench/%s.svg) |\n", family[i], what[family[i]], family[i]
    print "\n## From 2,048 to 4,096 words\n"
    print "| family | words | words | station_lent: times as long | station_match |\n|---|---|---|---|---|"
    printf "%s", growth_rows
    print "\n## A night\n"
    print night " Each list is a job file of its own with a random table of 64 to 512 words and a pair for each 16 words; half of the lists can be met.\n"
    print "## Prolog systems\n"
    print "unify_with_occurs_check on document 000's examples, nanoseconds a call, in the same run. The terms are built beforehand; the station's time has the whole table check in it.\n"
    print "| system | example | n | time |\n|---|---|---|---|"
    printf "%s", peers
    print "\n## Other sizes\n"
    print head; printf "%s", other_rows
    print ""
}
