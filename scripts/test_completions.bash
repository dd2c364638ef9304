#!/bin/bash
# Completes some words as bash would, and compares the answers. Says what differs; status 1 then.
# shellcheck source=/dev/null
source "$(dirname -- "$(readlink -f -- "$0")")/../completions/pprof.bash"
# shellcheck disable=SC2317 # the completion calls it
compopt() { :; }
failed=0
count=0

# check WANTED WORD ..: what the last word is completed to.
check() {
    local wanted=$1
    shift
    count=$((count + 1))
    COMP_WORDS=(pprof "$@")
    COMP_CWORD=$#
    _pprof
    [[ "${COMPREPLY[*]}" == "$wanted" ]] && return
    echo "pprof $*: ${COMPREPLY[*]} in place of $wanted"
    failed=$((failed + 1))
}

check "-top" -top
check "-trim_path= -tree -traces" -tr
check "--trim_path= --tree --traces" --tr
check "-diff_base= -divide_by=" -di
check "flat cum" -sort = ""
check "flat cum" -sort =
check "cum" -sort = c
check "cum" -sort c
check "filefunctions files" x.pb -granularity = "fi"
check "-version" -v
check "" x.pb -v
check "" -base = x
check "" -focus = fl
check "" cpu
check "" sort c
check "-comments -compare -changes -cum -contentions" sort -c
echo "$count completions, $failed differ"
exit $((failed > 0))
