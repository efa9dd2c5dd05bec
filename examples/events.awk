# The events of a replay, or of an audit, from a capture of connections to the listeners of a server. In the capture's
# folder, with the port and the name of each listener:
#
#   tshark -r CAPTURE -Y 'tcp.dstport in {4045, 4046} && !tcp.analysis.retransmission' -T fields \
#     -e tcp.stream -e tcp.dstport -e tcp.flags.fin -e tcp.flags.reset -e tcp.payload \
#     | awk -v listeners="4045=admin 4046=lookup" -f events.awk > CAPTURE.events
#
# It needs what the clients sent from their first packet on, and in order: `tcp.analysis.lost_segment` finds gaps.
# Connections get numbers in the order in which they began.
BEGIN {
  FS = "\t"
  count_of_names = split(listeners, pairs, " ")
  for (i = 1; i <= count_of_names; i++) { split(pairs[i], pair, "="); name[pair[1]] = pair[2] }
}
!($1 in conn) { conn[$1] = ++count; print "open", count, name[$2] }
$1 in ended { next }
$5 != "" { gsub(":", "", $5); print "data", conn[$1], $5 }
$3 ~ /^(1|True)$/ || $4 ~ /^(1|True)$/ { ended[$1] = 1; print "end", conn[$1] }
