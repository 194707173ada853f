# table.awk, after counts.awk: prints the tables, in Markdown.
BEGIN {
    for (i = 1; i <= sizes; i++) budget["check, every part present"] = budget["check, every part present"] (i > 1 ? " / " : "") thousands(check_budget[size[i]])
    budget["one event alone, mixed"] = "2,000 / 7,000 / 32,000"
    budget["mixed list, an event"] = "400 / 1,100 / 3,900"
}

function at_sizes(what, side,   i, out) {
    for (i = 1; i <= sizes; i++) out = out (i > 1 ? " / " : "") thousands(cost(what, size[i], side))
    return out
}

function ratios(what,   i, out) {
    for (i = 1; i <= sizes; i++)
        out = out (i > 1 ? " / " : "") sprintf("%.2f", cost(what, size[i], "library") / cost(what, size[i], "plain"))
    return out
}

function growth(what, side,   i, out) {
    for (i = 2; i <= sizes; i++) out = out (i > 2 ? " / " : "") sprintf("%.1f", cost(what, size[i], side) / cost(what, size[i - 1], side))
    return out
}

function tenths(n,   t) {
    t = sprintf("%.0f", 10 * n)
    return thousands(int(t / 10)) "." t % 10
}

# A table of calls that are over no circuits: the rows that begin with its title, printed without it.
function print_calls(title,   k, what) {
    print "| " title " | library | plain C | library : plain C |"
    print "|---|---|---|---|"
    for (k = 1; k <= kinds; k++) {
        what = order[k]
        if (index(what, title ": ") == 1)
            print "| " substr(what, length(title ": ") + 1) " | " tenths(cost(what, 0, "library")) " | " tenths(cost(what, 0, "plain")) " | " \
                sprintf("%.2f", cost(what, 0, "library") / cost(what, 0, "plain")) " |"
    }
    print ""
}

END {
    print "| at 16 / 64 / 256 circuits | library | plain C | library : plain C | budget | library grows | plain C grows |"
    print "|---|---|---|---|---|---|---|"
    for (k = 1; k <= kinds; k++) {
        what = order[k]
        if (sized[what] && what != at_random)
            print "| " what " | " at_sizes(what, "library") " | " at_sizes(what, "plain") " | " ratios(what) " | " budget[what] \
                " | " growth(what, "library") " | " growth(what, "plain") " |"
    }
    print ""
    print_calls("one field")
    print_calls("optional part")
    print "| " at_random " | least | mean | most | draws over the budget |"
    print "|---|---|---|---|---|"
    for (i = 1; i <= sizes; i++)
        print "| " size[i] " circuits | " thousands(least[size[i]]) " | " thousands(cost(at_random, size[i], "library")) " | " thousands(most[size[i]]) " | " \
            over[size[i]] + 0 " of " draws[size[i]] " |"
    print ""
    print "| stack of one call, octets | library, every path | library, painted | plain C, every path | plain C, painted |"
    print "|---|---|---|---|---|"
    for (k = 1; k <= stacks; k++) {
        what = stack_order[k]
        print "| " what " | " stack["frames", what, "library"] " | " stack["stack", what, "library"] " | " stack["frames", what, "plain"] " | " \
            stack["stack", what, "plain"] " |"
    }
    print ""
    print "| list at 256 circuits | answers: how many × which number |"
    print "|---|---|"
    for (k = 1; k <= lists; k++) print "| " answer_order[k] " | " answers[answer_order[k]] " |"
}
