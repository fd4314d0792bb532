#!/bin/sh
# Runs the array job of docs/shards.md under a Slurm of its own, and compares its answers with those of the whole: slurm.sh TRACE [USER..]
#
# To be run as root, on Debian: where the packages munge and slurm-wlm are missing they are installed, and stay. Its Slurm has this machine
# as its one node. It listens on the loopback's ports PORT and PORT+1 alone, 26817 and 26818 where PORT isn't given; its key, socket, state
# and logs stand in the script's folder, and it neither reads nor changes the machine's own Slurm. TRACE has the delimiter 0x1E, and is cut
# into 16. Each user, else 0, asks from the root, a directory, a file and what isn't there, without an expression and with two: lines,
# statuses and notes have to be the same. PROGRAM names the program, else it is the script gufi of this clone.
#
# The status is 1 where an answer differs, a step failed or nothing was compared; in the end nothing runs any more and the folder is gone.
step='its beginning' is_told='' work='' namespace='' job='' policy=''

# Ends what was begun, however the script ends; without a new process, as one may be refused.
end() {
    status=$?
    trap - EXIT
    trap '' HUP INT PIPE TERM
    [ "$status" -eq 0 ] || [ -n "$is_told" ] || echo "slurm.sh: ended with status $status at this step: $step" >&2
    [ -z "$job" ] || { kill -KILL "$job" && wait "$job"; } 2>/dev/null
    [ -z "$namespace" ] || { exec 9>&- && wait "$namespace"; } 2>/dev/null
    [ -n "$work" ] || exit "$status"
    exec python3 -IS -c '
import os, shutil, sys
if sys.argv[3]:
    os.unlink(sys.argv[3])
shutil.rmtree(sys.argv[1])
sys.exit(int(sys.argv[2]))' "$work" "$status" "$policy"
}

# Ends with what failed, and with the last lines of a log where one is given.
fail() {
    is_told=yes
    echo "slurm.sh: $1" >&2
    [ -z "$2" ] || tail -n 5 -- "$2" >&2
    exit 1
}

trap end EXIT
trap 'exit 129' HUP
trap 'exit 130' INT
trap 'exit 141' PIPE
trap 'exit 143' TERM
here=$(CDPATH= cd -P -- "$(dirname -- "$0")" && pwd) || exit 1
PROGRAM=${PROGRAM:-$here/../gufi}
case $PROGRAM in
    /*) ;;
    */*) PROGRAM=$PWD/$PROGRAM ;;
esac
PATH=$PATH:/usr/sbin:/sbin
export PROGRAM PATH
[ $# -ge 1 ] || { is_told=yes; echo "slurm.sh TRACE [USER..]" >&2; exit 2; }
trace=$1
shift
[ $# -gt 0 ] || set -- 0
case $trace in
    -*) trace=./$trace ;;
esac
[ "$(id -u)" -eq 0 ] || fail 'it has to be run as root'
command -v python3 >/dev/null || fail 'it needs python3'
PORT=${PORT:-26817}
case $PORT in
    *[!0-9]* | ??????*) fail "no port: $PORT" ;;
esac
[ "$PORT" -gt 0 ] && [ "$PORT" -lt 65535 ] || fail "no port: $PORT"
# Nothing that the caller's Slurm is told by them is told to this one.
step='unsetting the variables of Slurm'
variables=$(env | sed -n 's/^\(S\(LURM\|BATCH\|CONTROL\|INFO\)_[A-Z0-9_]*\)=.*/\1/p') || exit 1
for variable in $variables; do unset "$variable"; done
step='making its folder'
work=$(mktemp -d) || exit 1
case $work in
    /*) ;;
    *) work=$PWD/$work ;;
esac
case $work in
    *[!A-Za-z0-9_./-]*) fail "slurm.conf has no form for the name of this folder: $work" ;;
esac
SLURM_CONF=$work/slurm.conf
export SLURM_CONF

# Installs what is missing. No service of the packages is started: where the machine has no policy for that, it has one meanwhile.
install() {
    step='asking which packages are installed'
    command -v dpkg-query >/dev/null || fail 'this is no Debian: it has no dpkg-query'
    missing=''
    for package in munge slurm-wlm; do
        [ "$(dpkg-query -W -f '${db:Status-Status}' "$package" 2>"$work/dpkg.log")" = installed ] || missing="$missing $package"
    done
    [ -n "$missing" ] || return 0
    step="installing$missing"
    if [ ! -e /usr/sbin/policy-rc.d ]; then
        policy=/usr/sbin/policy-rc.d
        printf '#!/bin/sh\nexit 101\n' >"$policy" && chmod 755 "$policy" || exit 1
    fi
    DEBIAN_FRONTEND=noninteractive
    export DEBIAN_FRONTEND
    apt-get -o DPkg::Lock::Timeout=300 update >"$work/apt.log" 2>&1 &&
        apt-get -o DPkg::Lock::Timeout=300 -y --no-install-recommends install $missing >"$work/apt.log" 2>&1 ||
        fail "apt-get couldn't install$missing" "$work/apt.log"
    [ -z "$policy" ] || rm "$policy" || exit 1
    policy=''
}

# Cuts the trace, and makes an image of the whole and of each shard.
make_images() {
    step='making the image of the whole'
    "$PROGRAM" trace2index "$trace" >"$work/whole.index" || exit 1
    step='cutting the trace'
    "$here/../examples/cut.py" "$trace" 16 "$work/shards" && mkdir "$work/images" || exit 1
    for number in 1 2 3 4 5 6 7 8 9 10 11 12 13 14 15 16; do
        step="making the image of shard $number"
        [ -e "$work/shards/$number.trace" ] || fail "$trace is too small for 16 shards: number $number has no row"
        "$PROGRAM" trace2index "$work/shards/$number.trace" >"$work/images/$number.index" || exit 1
    done
}

# Some places in the trace: the root, a directory half-way, a file, and one that isn't there, below another directory.
choose_starts() {
    step='choosing starts'
    awk -F '\036' '
        NR == 1 { root = length($1) + ($1 != "/") }
        $2 == "d" { directory[++count] = $1 }
        $2 == "f" { file = $1 }
        END {
            print "/"
            print substr(directory[int((1 + count) / 2)] "/", root)
            print substr(file, root)
            print substr(directory[int((3 + count) / 4)] "/nothing", root)
        }' <"$trace" >"$work/starts" || exit 1
}

# The node has a place for each task, whatever processors it has, so none waits for the scheduler's next look. Lost tasks aren't run again,
# so that one is seen. With this MinJobAge `sbatch --wait` looks every two seconds.
configure() {
    step='writing the configuration'
    host=$(uname -n) && mkdir "$work/state" "$work/spool" && mkfifo "$work/end" || exit 1
    host=${host%%.*}
    cat >"$SLURM_CONF" <<END || exit 1
ClusterName=gufi
SlurmctldHost=$host(127.0.0.1)
SlurmctldPort=$PORT
SlurmdPort=$((PORT + 1))
CommunicationParameters=NoCtldInAddrAny,NoInAddrAny
AuthType=auth/munge
AuthInfo=socket=$work/socket
CredType=cred/munge
SlurmUser=root
SlurmdUser=root
StateSaveLocation=$work/state
SlurmdSpoolDir=$work/spool
SlurmctldPidFile=$work/slurmctld.pid
SlurmdPidFile=$work/slurmd.pid
ProctrackType=proctrack/linuxproc
TaskPlugin=task/none
MpiDefault=none
MailProg=/bin/true
SelectType=select/cons_tres
SelectTypeParameters=CR_CPU
SchedulerType=sched/builtin
MinJobAge=5
JobRequeue=0
SlurmdParameters=config_overrides
NodeName=$host NodeAddr=127.0.0.1 CPUs=16 State=UNKNOWN
PartitionName=gufi Nodes=$host Default=YES State=UP
END
    step='making the key of munge'
    mungekey --create --keyfile="$work/key" || exit 1
}

# Starts the daemons in a namespace of processes of their own: tasks detach themselves from slurmd, so they would outlive a slurmd that is
# killed, but all end with the namespace. It ends where the writer of its pipe does, so also where this script is killed.
start() {
    step='starting munged, slurmctld and slurmd'
    exec 9<>"$work/end" || exit 1
    unshare --pid --fork --kill-child --mount-proc sh -c '
        run() { ("$@" >"$1.log" 2>&1; echo "$?" >"$1.ended") 8<&- & }
        cd "$1" || exit
        cat <&8 >/dev/null &
        end=$!
        run munged --foreground --force --key-file="$1/key" --socket="$1/socket" --pid-file="$1/munged.pid" --log-file="$1/munged.log" \
            --seed-file="$1/seed"
        until [ -e socket ] || [ -e munged.ended ]; do sleep 1; done
        run slurmctld -D -f "$SLURM_CONF"
        run slurmd -D -f "$SLURM_CONF"
        wait "$end"' slurm.sh "$work" 8<"$work/end" 9>&- </dev/null >"$work/namespace.log" 2>&1 &
    namespace=$!
}

# Sees that the daemons run. One that has ended left its status.
look() {
    for daemon in munged slurmctld slurmd; do
        [ ! -e "$work/$daemon.ended" ] || {
            read -r status <"$work/$daemon.ended"
            fail "$daemon ended with status $status at this step: $step" "$work/$daemon.log"
        }
    done
    kill -0 "$namespace" 2>/dev/null || fail "the daemons' namespace ended at this step: $step" "$work/namespace.log"
}

# Waits until the node takes jobs.
await() {
    waited=0
    until [ "$(timeout 10 sinfo --noheader --format=%T 2>"$work/sinfo.log")" = idle ]; do
        look
        sleep 1 || exit 1
        waited=$((waited + 1))
        [ "$waited" -lt 60 ] || fail 'the node takes no jobs' "$work/slurmctld.log"
    done
    look
}

# Asks one question by the job of docs/shards.md, from the folder that has the images, and merges its answers. Where this script is killed,
# `sbatch` is too.
ask() {
    step="the job for $*"
    answers=$(mktemp -d -p "$PWD") || exit 1
    setpriv --pdeathsig KILL sbatch --wait --array=1-16 --output=/dev/null "$here/../examples/shard.sh" "$answers" images "$@" \
        9>&- >"$work/job.log" 2>&1 &
    job=$! waited=0
    while kill -0 "$job" 2>/dev/null; do
        look
        sleep 1 || exit 1
        waited=$((waited + 1))
        [ "$waited" -lt 120 ] || fail "not ended after 120 s: $step" "$work/job.log"
    done
    wait "$job"
    status=$?
    job=''
    [ "$status" -eq 0 ] || fail "sbatch ended with status $status at this step: $step" "$work/job.log"
    "$here/../examples/merge.sh" "$answers" 16 >"$work/merged" 2>"$work/merged.note"
    status=$?
    rm -r -- "$answers" || exit 1
}

# Compares one question, whose words are given.
compare() {
    step="find over the whole for $*"
    "$PROGRAM" find "$work/whole.index" "$@" >"$work/whole" 2>"$work/whole.note"
    whole=$?
    [ "$whole" -le 1 ] || fail "status $whole at this step: $step" "$work/whole.note"
    ask "$@"
    [ "$status" -eq "$whole" ] && cmp -s "$work/whole" "$work/merged" && cmp -s "$work/whole.note" "$work/merged.note" ||
        fail "16 shards differ (status $status, of the whole $whole): $*" "$work/merged.note"
    same=$((same + 1)) lines=$((lines + $(wc -l <"$work/whole"))) refused=$((refused + (whole > 0)))
}

make_images
choose_starts
install
configure
start
await
cd "$work" || exit 1
same=0 lines=0 refused=0
for user; do
    while IFS= read -r place; do
        compare "$user" "$place"
        compare "$user" "$place" -name '*[05]*' -size +8
        compare "$user" "$place" -type d -mindepth 1 -maxdepth 3 ! -perm -5
    done <"$work/starts"
done
[ "$lines" -gt 0 ] || fail 'nothing was compared'
step='telling the result'
echo "16 shards by Slurm: $same answers with $lines lines are those of the whole; $refused starts were refused" || exit 1
