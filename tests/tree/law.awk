# Whether a file of laws has that of a function: one whose whole type is OneAnswer of the function's own kinds and of its contract as it stands, or OneAnswerOf
# of its contract as an assertion of the logic, and which stands under no premise.
#
#     awk -v crate=CRATE -v path=PATH -f law.awk crates/CRATE/proofs/OneAnswers.antt
BEGIN { proofs = "Rattle." crate ".proofs." path; contract = "Rattle." crate ".specs.contracts." path }
/^ *module / { bad = 1 }
/^((abbrev|unfoldable|opaque|data|record|pub) )*OneAnswer(Of)? / { bad = 1 }
/^ *(pub |open |unfoldable )*use .*OneAnswer/ && !/^use Rattle\.bits\.specs\.OneAnswer\.[{]OneAnswer(, OneAnswerOf)?[}]$/ &&
    !/^use Rattle\.[a-z_0-9]+\.proofs\.OneAnswers as [a-z]+$/ { bad = 1 }
$1 == "use" && $3 == "as" {
    if ($4 in named) bad = 1
    named[$4] = $2
}
wanted != "" { if ($1 == wanted) found = 1; wanted = "" }
/^pub [^ ]+ : OneAnswer [0-9]+ [^ ]+\.ps [^ ]+\.r [^ ]+\.Post$/ {
    kinds = $6; sub(/\.ps$/, "", kinds)
    again = $7; sub(/\.r$/, "", again)
    reads = $8; sub(/\.Post$/, "", reads)
    if (kinds == again && named[kinds] == proofs ".Kinds" && named[reads] == proofs ".Reads") wanted = $2
}
/^pub [^ ]+ : [{]M : Type 1[}] → OneAnswerOf M [^ ]+\.ended \(λ 𝓤 𝓛\. [^ ]+\.clauses 𝓛\)$/ {
    ended = $(NF - 5); sub(/\.ended$/, "", ended)
    clauses = $(NF - 1); sub(/\.clauses$/, "", clauses)
    if (ended == clauses && named[ended] == contract) wanted = $2
}
END { exit !(found && !bad) }
