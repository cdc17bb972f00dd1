#!/bin/bash
# A PostgreSQL cluster of its own in a temporary folder, on a Unix socket, with psql on it reading standard input; all of it goes when the
# input ends. As root it runs as the user postgres. Nothing is synchronised to disk, and each query runs in one process.
set -eu
root=$PWD
programs=/usr/lib/postgresql/15/bin
folder=$(mktemp -d)
trap 'as_server "$programs/pg_ctl" -D "$folder/data" -m immediate stop >/dev/null 2>&1 || true; rm -rf "$folder"' EXIT
trap 'exit 1' INT TERM

as_server() {
    if [ "$(id -u)" = 0 ]; then runuser -u postgres -- "$@"; else "$@"; fi
}

if [ "$(id -u)" = 0 ]; then chown postgres "$folder"; fi
cd "$folder"
as_server "$programs/initdb" -D "$folder/data" -A trust -U bench --no-sync >/dev/null
as_server "$programs/pg_ctl" -D "$folder/data" -w -l "$folder/log" start -o "-k $folder -c listen_addresses='' -c fsync=off \
    -c synchronous_commit=off -c full_page_writes=off -c autovacuum=off -c jit=off -c max_parallel_workers_per_gather=0 \
    -c shared_buffers=512MB -c work_mem=64MB -c client_min_messages=warning" >/dev/null
cd "$root"
"$programs/psql" -h "$folder" -U bench -d postgres -qAtX -F ' ' -v ON_ERROR_STOP=1
