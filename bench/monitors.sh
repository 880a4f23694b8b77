# Read by the scripts that time monitors, with their words. A script says before: `name`, of its property file NAME.qtl and of
# its logs; `usual`, how many events a log has where none are named; and `write_log`, which prints one of $events events.
# A PEER is a monitor that is called as PEER SPEC LOG, as README.md tells. There may be none.
events=${1:-$usual}
rounds=${2:-5}
[ $# -lt 1 ] || shift
[ $# -lt 1 ] || shift
here=$(CDPATH='' cd "$(dirname "$0")" && pwd)
. "$here/program.sh"

log=$here/data/$name-$events.csv
if [ ! -s "$log" ]; then
    write_log >"$log.part"
    mv "$log.part" "$log"
fi

exec python3 "$here/monitors.py" "$here/$name.qtl" "$log" "$events" "$rounds" "$program" "$@"
