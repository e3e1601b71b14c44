# From a listing, one line for each tag seen: its EPC, the antenna, and the time in microseconds since 1970.
/^1 / { epc = antenna = "" }
$2 ~ /^EPC/ { epc = $NF }
$2 == "AntennaID" { antenna = $3 }
$2 == "FirstSeenTimestampUTC" { print epc "|" antenna "|" $3 }
