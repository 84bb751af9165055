# Prints the table: from the counts (row, instructions of one operation for the port, the same for the original) and the times that five runs
# of the drivers wrote (bench.c says how). Status 1 where the port's scan grows 12 times or more from 10,000 to 100,000 records.

BEGIN {
    label["crc-64"] = "CRC-32 of 64 bytes"
    label["crc-4096"] = "CRC-32 of 4 KiB"
    label["crc-1048576"] = "CRC-32 of 1 MiB"
    label["scan-1000"] = "scan of 1,000 records"
    label["scan-10000"] = "scan of 10,000 records"
    label["scan-100000"] = "scan of 100,000 records"
    label["walk-1000"] = label["walk-10000"] = label["walk-100000"] = "the same, the original with no index"
    label["write-seal"] = "write and seal, frame of 200 bytes"
    label["reread"] = "re-read, frame of 200 bytes"
}

# The speed of one side, from the nanoseconds of an operation.
function speed(name, bytes, messages, ns) {
    if (ns == 0) return "-"
    if (name ~ /^crc/) return sprintf("%.1f MB/s", 1000 * bytes / ns)
    if (messages > 1) return sprintf("%.1f MB/s, %.0f ns a message", 1000 * bytes / ns, ns / messages)
    return sprintf("%.0f ns", ns)
}

# Instructions: a byte of a CRC-32, else a message.
function counted(name, bytes, messages, count) {
    if (count == "") return "-"
    if (name ~ /^crc/) return sprintf("%.2f a byte", count / bytes)
    return sprintf("%.0f a message", count / messages)
}

FILENAME ~ /counts$/ {
    mine[$1] = $2
    theirs[$1] = $3
    next
}

# Keeps a row's times in order, from the least on.
function keep(times, name, count, ns) {
    for (; count > 0 && times[name, count] > ns; count--) times[name, count + 1] = times[name, count]
    times[name, count + 1] = ns
}

{
    if (!($1 in runs)) order[++rows] = $1
    bytes[$1] = $2
    messages[$1] = $3
    keep(port, $1, runs[$1], $4)
    keep(original, $1, runs[$1], $5)
    runs[$1]++
}

function ratio(name,    middle) {
    middle = int((runs[name] + 1) / 2)
    if (original[name, 1] == 0) return "-"
    return sprintf("%.2f (%.2f)", original[name, 1] / port[name, 1], original[name, middle] / port[name, middle])
}

function show(name) {
    printf "| %s | %s | %s | %s | %s | %s |\n", label[name], speed(name, bytes[name], messages[name], port[name, 1]),
        speed(name, bytes[name], messages[name], original[name, 1]), ratio(name), counted(name, bytes[name], messages[name], mine[name]),
        counted(name, bytes[name], messages[name], theirs[name])
    if (original[name, 1] == 0) left = left (left == "" ? "" : "; ") label[name]
}

END {
    print "| | port | original | ratio (of medians) | instructions, port | instructions, original |"
    print "|---|---|---|---|---|---|"
    for (i = 1; i <= rows; i++) show(order[i])
    growth = port["scan-100000", 1] / port["scan-10000", 1]
    printf "\nGrowth of a scan's time from 10,000 to 100,000 records: %.2f times", growth
    if (left == "") printf "; the original's %.2f times", original["scan-100000", 1] / original["scan-10000", 1]
    print ". Asked for: under 12."
    if (left != "") print "No original to compare with: " left ". The scan against the original with no index is left out."
    exit growth >= 12
}
