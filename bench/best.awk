# The best time of each row of a file of times, and how a table tells it.
{ if (!($1 in best) || $2 < best[$1]) best[$1] = $2 }
# how many times as fast as its peer, where that was timed
function ratio(name, peer) { return (peer in best) ? sprintf("%.2f", best[peer] / best[name]) : "" }
# over a file of so many MiB as the variable mib says
function speed(name) { return sprintf("%d MB/s", mib * 1048.576 / best[name]) }
