# Prints docs/ANSWERS.md with the tables of answers made anew from docs/answers.tsv.
# usage: awk -f scripts/make_answers.awk docs/answers.tsv docs/ANSWERS.md

BEGIN { FS = "\t" }

# The lines of the tables, by the first word of the reply.
FNR == NR {
    if (FNR == 1) next
    group = $1
    sub(/ .*/, "", group)
    rest = substr($1, length(group) + 2)
    if (group == "refused")
        line = "| " rest " | " $2 " | " $3 " | " $5 " | " $7 " |"
    else if (group == "status") {
        status = rest
        sub(/ .*/, "", status)
        last = substr(rest, length(status) + 2)
        line = "| " status " | " (last == "" ? "" : "`" last "`") " | " $2 " | " $7 " |"
    } else if (group == "error" || group == "book" || group == "no")
        line = "| " rest " | " $2 " | " $7 " |"
    else
        line = "| " $1 " | " $2 " | " $7 " |"
    if (group == "accepted" || group == "again") group = "reply"
    lines[group] = lines[group] line "\n"
    next
}

/^<!-- end -->$/ { skipping = 0 }

!skipping { print }

/^<!-- made of answers.tsv: [a-z]+ -->$/ {
    group = $0
    sub(/^<!-- made of answers.tsv: /, "", group)
    sub(/ -->$/, "", group)
    skipping = 1
    if (group == "refused")
        print "| rule | broken where | what KEPT is | what BOUND is | what to do |\n|---|---|---|---|---|"
    else if (group == "status")
        print "| status | last line | means | what to do |\n|---|---|---|---|"
    else if (group == "error" || group == "no")
        print "| cause | means | what to do |\n|---|---|---|"
    else if (group == "book")
        print "| error | means | what to do |\n|---|---|---|"
    else
        print "| reply | means | what to do |\n|---|---|---|"
    printf "%s", lines[group]
}
