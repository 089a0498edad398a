# One table in Markdown for each kind, from the lines that bench/run has gathered:
#   tool NAME WORDS                                the date, and the compilers' versions
#   kind KIND STREAM
#   events STREAM ALL ARRIVALS DEPARTURES TICKS SLOTS
#   verdicts STREAM ENQUEUED MARKED BYTES SLOTS EARLY
#   activity STREAM INACTIVE QUIESCENT ACTIVE      calls that met a flow so, of a modem's stream
#   inactive STREAM N                              events that met the queue so, of a calm stream
#   intercom STREAM CALLS                          calls of a pair's first queue
#   flows STREAM LISTED HOLDING                    of 64 flows, on average and in hundredths
#   rounds STREAM N                                once for each process
#   time STREAM WHAT SIDE MEDIAN LEAST GREATEST    ratios to plain C, once for each process
#   count STREAM WHAT SIDE INSTRUCTIONS            per call, per line of a script, or per record of a log

$1 == "tool" { name = $2; sub(/^tool [^ ]+ /, ""); tool[name] = $0 }
$1 == "kind" {
    if (!($2 in streams))
        kind[++kinds] = $2
    stream[$2, ++streams[$2]] = $3
}
$1 == "events" {
    all[$2] = $3
    arrivals[$2] = $4
    departures[$2] = $5
    ticks[$2] = $6
    slots[$2] = $7
}
$1 == "verdicts" { for (i = 1; i <= 5; i++) verdict[$2, i] = $(i + 2) }
$1 == "activity" { for (i = 1; i <= 3; i++) activity[$2, i] = $(i + 2); modem[$2] = 1 }
$1 == "inactive" { inactive[$2] = $3 }
$1 == "intercom" { intercom[$2] = $3 }
$1 == "flows" { listed[$2] = $3 / 100; holding[$2] = $4 / 100 }
$1 == "rounds" { rounds[$2] = $3; processes[$2]++ }
$1 == "time" { add_time($2 SUBSEP $3 SUBSEP $4, $5, $6, $7) }
$1 == "count" { count[$2, $3, $4] = $5 }

# Keeps the medians of the processes in ascending order, and their middle as the median.
function add_time(key, middle, least, greatest,    i) {
    for (i = ++n[key]; i > 1 && medians[key, i - 1] > middle; i--)
        medians[key, i] = medians[key, i - 1]
    medians[key, i] = middle
    median[key] = medians[key, int((n[key] + 1) / 2)]
    low[key] = n[key] == 1 || least < low[key] ? least : low[key]
    high[key] = n[key] == 1 || greatest > high[key] ? greatest : high[key]
}

function count_of(s, what, side) {
    return (s, what, side) in count ? sprintf("%.1f", count[s, what, side]) : "-"
}

# A side's instructions to plain C's.
function count_ratio(s, what, side) {
    if (!((s, what, side) in count) || !((s, what, "plain") in count))
        return "-"
    return sprintf("%.2f", count[s, what, side] / count[s, what, "plain"])
}

# Another plain C's instructions and time to plain C's.
function other(s, what, side) {
    return (s, what, side) in median ? sprintf("%s, %.2f", count_ratio(s, what, side), median[s, what, side]) : "-"
}

function row(s, what, label,    key) {
    key = s SUBSEP what SUBSEP "library"
    if (!(key in median))
        return
    printf "| %s | %s | %s | %s | %s | %.2f (%.2f..%.2f) |", s, label, count_of(s, what, "plain"), count_of(s, what, "library"),
        count_ratio(s, what, "library"), median[key], low[key], high[key]
    if (with_other)
        printf " %s |", other(s, what, what ~ /^calls/ ? "room" : "clang")
    print ""
}

function rows(s) {
    row(s, "mix", "mix")
    row(s, "arrival", "arrival")
    row(s, "departure", "departure")
    row(s, "tick", "tick")
    row(s, "calls-32", "in bursts of 32")
    row(s, "calls-256", "in bursts of 256")
    row(s, "script", "script, a line")
}

function log_rows(s) {
    row(s, "add", "add")
    row(s, "replay", "replay, a record")
    row(s, "compare", "compare, a record")
}

# What is asked of a row: at most so many times plain C in time, and in instructions (0: not asked).
function ask(s, what, most, most_counted) {
    if (median[s, what, "library"] > most)
        missed = missed sprintf(", %s of %s in time (%.3f)", what, s, median[s, what, "library"])
    if (most_counted > 0 && count[s, what, "library"] > most_counted * count[s, what, "plain"])
        missed = missed sprintf(", %s of %s in instructions (%.3f)", what, s, count[s, what, "library"] / count[s, what, "plain"])
}

function ask_entries(s, most, most_counted) {
    ask(s, "calls-32", 1.0, 1.0)
    ask(s, "calls-256", 1.0, 1.0)
    if (s in inactive) # nothing else is asked of it
        return
    ask(s, "arrival", most, most_counted)
    ask(s, "departure", most, most_counted)
    ask(s, "tick", most, most_counted)
}

function ask_log(s) {
    ask(s, "add", 1.1, 1.1)
    ask(s, "replay", 1.1, 1.1)
    ask(s, "compare", 1.5, 1.5)
}

# A pair's entry to the ring's of a like stream, in the library's instructions.
function to_ring(s, of, what,    most) {
    most = 1.6 * count[of, what, "library"]
    if (count[s, what, "library"] > most)
        missed = missed sprintf(", %s of %s beside the ring's", what, s)
    return sprintf("%s %.2f", what, count[s, what, "library"] / count[of, what, "library"])
}

function print_to_ring(s, of) {
    if (!((s, "tick", "library") in count) || !((of, "tick", "library") in count))
        printf "Stream %s is not compared with the ring's, which was not counted in this run.\n", s
    else
        printf "The pair's entries to the ring's, stream %s to %s, instructions of the library: %s; %s; %s.\n", s, of,
            to_ring(s, of, "arrival"), to_ring(s, of, "departure"), to_ring(s, of, "tick")
}

function share(n, of) {
    return sprintf("%.1f %%", 100 * n / of)
}

function print_stream(s) {
    printf "Stream %s: %d events, %s arrivals (%s of them enqueued, %s marked, ", s, all[s],
        share(arrivals[s], all[s]), share(verdict[s, 1], arrivals[s]), share(verdict[s, 2], arrivals[s])
    printf "%s dropped early, %s for bytes or slots), %s departures, %s ticks; ",
        share(verdict[s, 5], arrivals[s]), share(verdict[s, 3] + verdict[s, 4], arrivals[s]),
        share(departures[s], all[s]), share(ticks[s], all[s])
    if (s in modem)
        printf "16 flows, met inactive by %s of the calls, quiescent by %s, active by %s; ",
            share(activity[s, 1], all[s]), share(activity[s, 2], all[s]), share(activity[s, 3], all[s])
    if (s in inactive)
        printf "a calm queue, met inactive by %s of them; ", share(inactive[s], all[s])
    if (s in intercom)
        printf "2 queues, %s of the calls for the first; ", share(intercom[s], all[s])
    if (s in listed)
        printf "64 flows, of which %.1f were listed and %.1f held packets; ", listed[s], holding[s]
    printf "%d slots; %d processes of %d rounds.\n", slots[s], processes[s], rounds[s]
}

function print_other_sides(s,    side) {
    for (side in named)
        if ((s, "mix", side) in median)
            printf "%s, stream %s: mix %s; arrival %s; departure %s; tick %s.\n", named[side], s, other(s, "mix", side),
                other(s, "arrival", side), other(s, "departure", side), other(s, "tick", side)
}

function print_kind(k,    i) {
    missed = ""
    with_other = k != "log"
    printf "\n## %s\n\n", title[k]
    for (i = 1; i <= streams[k] && k != "log"; i++)
        print_stream(stream[k, i])
    if (k != "log")
        print ""
    print "| Stream | Call | Plain C | Library | Library / C | Time, library / C |" (with_other ? " Other C |" : "")
    print "|---|---|---|---|---|---|" (with_other ? "---|" : "")
    for (i = 1; i <= streams[k]; i++)
        if (k == "log")
            log_rows(stream[k, i])
        else
            rows(stream[k, i])
    print ""
    for (i = 1; i <= streams[k]; i++) {
        if (k == "ring")
            print_other_sides(stream[k, i])
        if (k == "log")
            ask_log(stream[k, i])
        else
            ask_entries(stream[k, i], k == "ring" ? 1.05 : 1.1, k == "ring" ? 1.0 : k == "pair" ? 0 : 1.1)
    }
    if (k == "pair") {
        print_to_ring("pair", "varied")
        print_to_ring("pair-full", "full")
    }
    printf "Asked: %s: %s\n", asked[k], missed == "" ? "reached." : "missed by " substr(missed, 3) "."
}

END {
    title["ring"] = "The ring"
    title["modem"] = "The modem"
    title["pair"] = "Two queues over one pair of tables"
    title["fq"] = "64 flows over one pair of tables"
    title["log"] = "The log"
    asked["ring"] = "entries of plain queues at most 1.05 times plain C in time and 1.0 in instructions; bursts 1.0 in both"
    asked["modem"] = asked["fq"] = "entries at most 1.1 times plain C in time and instructions; bursts 1.0 in both"
    asked["pair"] = "entries at most 1.1 times plain C in time, and 1.6 times the ring's in instructions; bursts 1.0 times plain C in both"
    asked["log"] = "at most 1.1 times plain C in time and instructions; compare 1.5"
    named["before"] = "The earlier archive to plain C"
    named["remainder"] = "Plain C by remainders to plain C"
    printf "%s; %s, -O3%s.\n", tool["date"], tool["gcc"], "clang" in tool ? "; " tool["clang"] ", -O3" : ""
    print "Plain C and library: instructions per call. Times are ratios to plain C: median (least..greatest). Other C: instructions and"
    print "time to plain C's, of plain C by clang, and in bursts of plain C that tests once that the counts have room for the whole burst."
    for (i = 1; i <= kinds; i++)
        print_kind(kind[i])
}
