#!/bin/sh
# Starts the server at free ports, has clients call it, and ends it: the program that `make run` starts, or for a measurement the proved one.
# Usage: run.sh [polls | many | watched]. Without an argument the tours of boto3 and of the AWS command line; with `polls` what becomes of receives
# that wait, and then what 1,000 quiet queues take, each within limits; with `many` how long requests take where there are 1,000 queues; with `watched`
# how long a send takes while statistics are read. For the first two JUTKARIQ_SERVER can name another program.
set -eu
cd "$(dirname "$0")/.."

stop() {
    echo "clients/run.sh: $1" >&2
    exit 1
}

command -v python3 >/dev/null || stop "no python3: install Debian's package python3"
if [ "${1:-tours}" = tours ]; then
    python3 -c 'import boto3; raise SystemExit(tuple(map(int, boto3.__version__.split(".")[:2])) < (1, 34))' 2>/dev/null ||
        stop "no boto3 of 2024 or later: install Debian 13's package python3-boto3, or boto3 by pip"
    command -v aws >/dev/null || stop "no aws: install Debian's package awscli, of 2024 or later"
fi

if [ "${1:-tours}" = tours ] || [ "$1" = polls ]; then
    server=${JUTKARIQ_SERVER:-$(tools/run --which sqs_server)}
else
    server=$(python3 -B -c 'import sys; sys.path.insert(0, "tools"); import crates; print(crates.built(crates.Crates(), "sqs_server") or "")')
    [ -n "$server" ] || stop "no proved server of the code as it stands: 'make build' makes it"
fi
said=$(mktemp)
told=$(mktemp)
# where the server's standard error goes
exec 3>&2
if [ "${1:-tours}" = polls ]; then
    # a thousand connections at once are as many open files
    ulimit -S -n "$(ulimit -H -n)"
    # clients are refused there, and leave, on purpose: of the latter there are lines in any case, which are not shown
    export JUTKARIQ_LOG=none
    exec 3>"$told"
fi
JUTKARIQ_PORT=0 JUTKARIQ_STATISTICS_PORT=0 "$server" crates/sqs_server/example.toml >"$said" 2>&3 &
trap 'kill $! 2>/dev/null || true; rm "$said" "$told"' EXIT
trap 'exit 130' INT
trap 'exit 143' TERM
trap 'exit 129' HUP
# its first line names the port of the requests and that of the statistics
for _ in $(seq 50); do
    ports=$(sed -n 's|^sqs_server: requests at http://localhost:\([0-9]*\), statistics at http://localhost:\([0-9]*\), .*|\1 \2|p' "$said")
    [ -z "$ports" ] || break
    sleep 0.1
done
[ -n "$ports" ] || stop "the server does not say where it listens"
port=${ports% *}

if [ "${1:-tours}" = tours ]; then
    clients/tour.py "http://localhost:$port"
    clients/tour.sh "http://localhost:$port"
elif [ "$1" = polls ]; then
    # each is done, whatever fails
    status=0
    clients/polls.py "$port" || status=1
    grep -v '^[0-9:.]*Z connection: ' "$told" >&2 && status=1
    clients/rate.py --rest "$server" || status=1
    exit $status
elif [ "$1" = watched ]; then
    clients/watched.py $ports
else
    clients/many.py "$port"
fi
