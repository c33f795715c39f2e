# shellcheck shell=bash
# Sourced by tests/test_bench.sh and tests/record.sh, behind tests/answers.sh.

# oracle_figures RECORDING: the licence figures of the published Rust, one a line, behind the recording's closing
# line. Its meter is dumped before every start of a job and at the end: the result there is the last job's; 0
# before the first one, and 1 where it still runs.
oracle_figures() {
    tail -n 1 "$1"
    sed -e '1d; $d; s/^\(zero\|gain\) /dump\n&/' "$1" | { cat; echo dump; } | "$oracle_folder/pworacle" | awk '
        function value(name,    k) {
            for (k = 2; k <= NF; k++) if (index($k, name "=") == 1) return substr($k, length(name) + 2)
        }
        /^[0-9] mark=/ {
            refused[$1]++
            if ($2 != "mark=-") marks++
            if ($4 == "reading=1") readings++
        }
        /^\?/ || /PANIC/ || /NOTE/ { print "line " NR " of the answers: " $0; exit 1 }
        /^D3 / { counted = "e=" value("e") "\nva=" value("va") "\nt_int=" value("t_int") }
        /^D5 / && value("job_res") > 1 { jobs = jobs (jobs == "" ? "" : ",") value("job_res") }
        /^D6 / { stored = $2 "\n" $3 "\n" $4 "\n" $5 "\n" $6 }
        /^D8 / { mean = value("p_avg") }
        END {
            print counted; print "p_avg=" mean; print stored; print "job_res=" jobs
            print "readings=" readings; print "marks=" marks
            for (n = 1; n <= 8; n++) if (refused[n] > 0) print "refused_" n "=" refused[n]
        }'
}
