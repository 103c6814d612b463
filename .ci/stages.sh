# shellcheck shell=bash disable=SC2154
# Runs stages side by side: for .ci/run, which sets processors, and scratch, a folder.
#
#     now NAME                     runs a stage, the function of that name, to its end
#     plan NAME SHARE [NEED ..]    a stage, how many processors it uses, and the stages that it needs
#     run_stages                   runs those that are planned, in their order where two could begin; after a failure it continues
#                                  with those that do not need what failed, and then exits with 1
#     has_ended NAME               whether a stage has ended, passed or failed; also in another stage
#     end_stages                   ends those that run

declare -A share=() needs=() running=() began=() took=()
waiting=()
names=()
failed=()

plan() {
    share[$1]=$2
    needs[$1]=${*:3}
    waiting+=("$1")
}

has_ended() { [ -e "$scratch/$1.ended" ]; }
has_failed() { [[ " ${failed[*]} " == *" $1 "* ]]; }

start() {
    began[$1]=$SECONDS
    case $1 in
        # their output is shown while they run, because they take minutes
        unit_tests | proofs) "$1" </dev/null & ;;
        *) "$1" >"$scratch/$1.log" 2>&1 </dev/null & ;;
    esac
    running[$!]=$1
}

# Waits until a stage has ended, and shows its output.
finish() {
    local process name status=0
    wait -n -p process "${!running[@]}" || status=$?
    name=${running[$process]}
    unset "running[$process]"
    took[$name]=$((SECONDS - ${began[$name]}))
    names+=("$name")
    [ ! -e "$scratch/$name.log" ] || [ ! -s "$scratch/$name.log" ] || [ "$name" = proofs ] || cat "$scratch/$name.log"
    touch "$scratch/$name.ended"
    if [ $status = 0 ]; then
        echo "stage $name: ${took[$name]} s"
    else
        failed+=("$name")
        echo "FAILED: stage $name ended with status $status after ${took[$name]} s"
    fi
}

now() {
    start "$1"
    finish
    has_ended_well
}

# Ends the run if a stage has failed.
has_ended_well() {
    [ ${#failed[@]} = 0 ] || { close "FAILED: ${failed[*]}"; exit 1; }
}

is_ready() {
    local it
    for it in ${needs[$1]}; do
        has_ended "$it" && ! has_failed "$it" || return 1
    done
}

# Starts the stages that can run with those that are running.
start_ready() {
    local name busy=0 left=()
    for name in "${running[@]}"; do
        busy=$((busy + ${share[$name]}))
    done
    for name in "${waiting[@]}"; do
        if is_ready "$name" && { [ "${share[$name]}" = 0 ] || [ $busy -lt "$processors" ]; }; then
            start "$name"
            busy=$((busy + ${share[$name]}))
        else
            left+=("$name")
        fi
    done
    waiting=("${left[@]}")
}

# The last lines.
close() {
    local name
    printf 'seconds:'
    for name in "${names[@]}"; do
        printf ' %s %s' "$name" "${took[$name]}"
    done
    echo
    # how many proofs were done in this run, and how many earlier
    [ ! -e "$scratch/proofs.log" ] || sed -n 's/.*\(done in this run: .*\)/rt ci: \1/p' "$scratch/proofs.log"
    printf 'gate: %s; %s s on %s processors\n' "$1" $SECONDS "$processors"
}

run_stages() {
    # not in a condition: bash would then have no stage end at its first failure
    start_ready
    while [ ${#running[@]} != 0 ]; do
        finish
        start_ready
    done
    [ ${#waiting[@]} = 0 ] || echo "not run, since what they need failed: ${waiting[*]}"
    has_ended_well
    close passed
}

end_stages() {
    # bash reports each group that is ended
    exec 2>/dev/null
    local process
    for process in "${!running[@]}"; do
        kill -- "-$process" || true
    done
    wait || true
}
